//! The proved engine as Rust sees it: the functions of the static library, each behind a safe wrapper.
#![allow(dead_code)]

use crate::plain::{Counts, Fault, Point, Sheet};

unsafe extern "C" {
    fn engine_run(file: *const u8, file_len: usize, calls: *const u8, calls_len: usize, answers: *mut u8, answers_len: usize, out: *mut u8, out_len: usize) -> i64;
}

/// The bytes that one call takes on its way over the boundary, and those of its answer.
pub const CALL: usize = 24;
pub const ANSWER: usize = 10;

#[derive(Clone, Copy, PartialEq, Eq, Debug)]
pub enum Call {
    Start(u16, Point, Point),
    Sprout(u16, i16, Point),
    Join(u16, i16, i16),
    Split(u16, u16, Point),
    Remove(u16),
    Cut(i32),
    Knit(i32),
    Count,
}

impl Call {
    fn bytes(self) -> [u8; CALL] {
        let none = Point::default();
        let (kind, e, c, d, p, q) = match self {
            Call::Start(e, p, q) => (0u16, e, 0, 0, p, q),
            Call::Sprout(e, c, p) => (1, e, c, 0, p, none),
            Call::Join(e, c, d) => (2, e, c, d, none, none),
            Call::Split(e, f, p) => (3, e, f as i16, 0, p, none),
            Call::Remove(e) => (4, e, 0, 0, none, none),
            Call::Cut(x) => (5, 0, 0, 0, Point { x, y: 0 }, none),
            Call::Knit(x) => (6, 0, 0, 0, Point { x, y: 0 }, none),
            Call::Count => (7, 0, 0, 0, none, none),
        };
        let mut out = [0; CALL];
        out[0..2].copy_from_slice(&kind.to_le_bytes());
        out[2..4].copy_from_slice(&e.to_le_bytes());
        out[4..6].copy_from_slice(&c.to_le_bytes());
        out[6..8].copy_from_slice(&d.to_le_bytes());
        for (k, z) in [p.x, p.y, q.x, q.y].into_iter().enumerate() {
            out[8 + 4 * k..12 + 4 * k].copy_from_slice(&z.to_le_bytes());
        }
        out
    }

    /// Carries out the call in plain Rust.
    pub fn carry(self, sheet: &mut Sheet) -> Answer {
        let mut counts = Counts { vertices: 0, edges: 0, loops: 0, pieces: 0 };
        let answer = match self {
            Call::Start(e, p, q) => sheet.start(e, p, q),
            Call::Sprout(e, c, p) => sheet.sprout(e, c, p),
            Call::Join(e, c, d) => sheet.join(e, c, d),
            Call::Split(e, f, p) => sheet.split(e, f, p),
            Call::Remove(e) => sheet.remove(e),
            Call::Cut(x) => sheet.cut(x),
            Call::Knit(x) => sheet.knit(x),
            Call::Count => {
                counts = sheet.counts();
                Ok(())
            }
        };
        Answer { number: answer.err().unwrap_or(0) as u16, counts }
    }
}

/// What a call answered: 0 or the number of its refusal; counts, where they were asked for.
#[derive(Clone, Copy, PartialEq, Eq, Debug)]
pub struct Answer {
    pub number: u16,
    pub counts: Counts,
}

/// A list of calls, ready to be carried over the boundary many times.
pub struct List {
    calls: Vec<u8>,
    answers: Vec<u8>,
    out: Vec<u8>,
}

fn number(bytes: &[u8], k: usize) -> u16 {
    u16::from_le_bytes([bytes[k], bytes[k + 1]])
}

impl List {
    pub fn new(calls: &[Call]) -> List {
        List {
            calls: calls.iter().flat_map(|c| c.bytes()).collect(),
            answers: vec![0; (ANSWER * calls.len()).max(ANSWER)],
            out: vec![0xAA; 65536],
        }
    }

    /// Reads the file into a sheet of its own, carries out the calls, and writes the sheet. Gives the length of what was written, or -1 for a fault.
    pub fn run(&mut self, file: &[u8]) -> i64 {
        unsafe {
            engine_run(
                file.as_ptr(),
                file.len(),
                self.calls.as_ptr(),
                self.calls.len(),
                self.answers.as_mut_ptr(),
                self.answers.len(),
                self.out.as_mut_ptr(),
                self.out.len(),
            )
        }
    }

    pub fn answers(&self) -> Vec<Answer> {
        let count = self.calls.len() / CALL;
        self.answers
            .chunks(ANSWER)
            .take(count)
            .map(|a| Answer { number: number(a, 0), counts: Counts { vertices: number(a, 2), edges: number(a, 4), loops: number(a, 6), pieces: number(a, 8) } })
            .collect()
    }

    pub fn fault(&self) -> Fault {
        let a = &self.answers;
        Fault { layer: number(a, 0) as u8, number: number(a, 2) as u8, strip: number(a, 4), place: number(a, 6) }
    }

    pub fn written(&self, length: i64) -> &[u8] {
        &self.out[..length as usize]
    }

    pub fn beyond(&self, length: i64) -> &[u8] {
        &self.out[length as usize..]
    }
}
