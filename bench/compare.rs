//! Holds the proved engine against plain Rust: many files, valid and damaged, and many lists of calls. Every answer and every written byte must agree.
mod engine;
mod plain;

use engine::{Call, List};
use plain::{Point, Sheet};

/// A small generator of numbers, the same on every machine.
struct Dice(u64);

impl Dice {
    fn next(&mut self) -> u64 {
        self.0 ^= self.0 << 13;
        self.0 ^= self.0 >> 7;
        self.0 ^= self.0 << 17;
        self.0
    }

    fn below(&mut self, n: u64) -> u64 {
        (self.next() >> 11) % n
    }

    fn within(&mut self, low: i64, high: i64) -> i64 {
        low + self.below((high - low + 1) as u64) as i64
    }
}

/// What calls are made for: points lie close together, so that calls often meet; new edges mostly take the next number, and named ones are mostly there. Some of all are at or beyond a limit.
struct Shape {
    last: u16,
    reach: i32,
    sheet: Sheet,
    held: Vec<u16>,
}

impl Shape {
    fn edge(&self, dice: &mut Dice) -> u16 {
        if self.held.is_empty() || dice.below(8) == 0 {
            return dice.within(1, self.last as i64) as u16;
        }
        self.held[dice.below(self.held.len() as u64) as usize]
    }

    /// A list of calls, each made for the sheet that the ones before it leave.
    fn list(&mut self, dice: &mut Dice, length: i64) -> Vec<Call> {
        (0..length)
            .map(|_| {
                let next = call(dice, self);
                if next.carry(&mut self.sheet).number == 0 {
                    self.held = self.sheet.edges().collect();
                }
                next
            })
            .collect()
    }
}

fn number(dice: &mut Dice, shape: &Shape) -> u16 {
    match dice.below(80) {
        0 => 0,
        1 => 4095,
        2 => 4096,
        3 => 65535,
        _ => shape.edge(dice),
    }
}

fn new_number(dice: &mut Dice, shape: &mut Shape) -> u16 {
    if dice.below(12) == 0 {
        return number(dice, shape);
    }
    shape.last += 1;
    shape.last
}

fn name(dice: &mut Dice, shape: &Shape) -> i16 {
    match dice.below(80) {
        0 => 0,
        1 => i16::MIN,
        2 => 4096,
        _ => {
            let e = shape.edge(dice) as i16;
            if dice.below(2) == 0 { e } else { -e }
        }
    }
}

fn coordinate(dice: &mut Dice, shape: &Shape) -> i32 {
    match dice.below(80) {
        0 => 1_000_000,
        1 => -1_000_000,
        2 => 1_000_001,
        3 => i32::MIN,
        _ => dice.within(-shape.reach as i64, shape.reach as i64) as i32,
    }
}

fn point(dice: &mut Dice, shape: &Shape) -> Point {
    Point { x: coordinate(dice, shape), y: coordinate(dice, shape) }
}

fn call(dice: &mut Dice, shape: &mut Shape) -> Call {
    match dice.below(24) {
        0..=4 => Call::Start(new_number(dice, shape), point(dice, shape), point(dice, shape)),
        5..=8 => Call::Sprout(new_number(dice, shape), name(dice, shape), point(dice, shape)),
        9..=14 => Call::Join(new_number(dice, shape), name(dice, shape), name(dice, shape)),
        15..=17 => Call::Split(number(dice, shape), new_number(dice, shape), point(dice, shape)),
        18 => Call::Remove(number(dice, shape)),
        19..=21 => Call::Cut(coordinate(dice, shape)),
        22 => Call::Knit(coordinate(dice, shape)),
        _ => Call::Count,
    }
}

/// Runs the calls on both from one file; gives what was written, and counts the answers by their numbers.
fn compare_list(file: &[u8], calls: &[Call], seen: &mut [u64; 64]) -> Vec<u8> {
    let mut list = List::new(calls);
    let length = list.run(file);
    let mut sheet = Sheet::read(file).expect("a file that is accepted");
    let answers = list.answers();
    for (k, call) in calls.iter().enumerate() {
        let answer = call.carry(&mut sheet);
        assert_eq!(answers[k], answer, "call {k}, {call:?}");
        seen[answer.number as usize] += 1;
        assert!(sheet.flat(), "flat after call {k}, {call:?}");
    }
    let written = sheet.write();
    assert_eq!(length, written.len() as i64, "length of what is written");
    assert_eq!(list.written(length), &written[..], "written bytes");
    assert!(list.beyond(length).iter().all(|b| *b == 0xAA), "later bytes stay");
    written
}

/// Both judge the bytes alike, and write what they accept alike.
fn compare_file(file: &[u8], seen: &mut [u64; 64]) {
    let mut list = List::new(&[]);
    let length = list.run(file);
    match Sheet::read(file) {
        Ok(sheet) => {
            assert!(length >= 0, "accepted by plain Rust, but {:?}", list.fault());
            assert_eq!(list.written(length), &sheet.write()[..], "written bytes");
            seen[0] += 1;
        }
        Err(fault) => {
            assert_eq!(length, -1, "not accepted: {fault:?}");
            assert_eq!(list.fault(), fault);
            seen[fault.number as usize] += 1;
        }
    }
}

/// The slots of each strip in another order: followers go along, and vertices come in the order of their new lowest slots.
fn shuffled(file: &[u8], dice: &mut Dice) -> Vec<u8> {
    let u16_at = |k: usize| u16::from_le_bytes([file[k], file[k + 1]]) as usize;
    let s = u16_at(0);
    let mut out = file.to_vec();
    let mut at = 2 + 4 * s + 4 * (s - 1);
    for j in 0..s {
        let (v, h) = (u16_at(2 + 4 * j), u16_at(4 + 4 * j));
        let mut old: Vec<usize> = (0..h).collect();
        for k in (1..h).rev() {
            old.swap(k, dice.below(k as u64 + 1) as usize);
        }
        let mut new = vec![0; h];
        old.iter().enumerate().for_each(|(k, i)| new[*i] = k);
        let follower = |i: usize| u16_at(at + 2 * h + 2 * i);
        let rounds = |order: &mut dyn Iterator<Item = usize>| {
            let mut vertex = vec![usize::MAX; h];
            let mut count = 0;
            for i in order {
                if follower(i) != 65535 && vertex[i] == usize::MAX {
                    let mut k = i;
                    while vertex[k] == usize::MAX {
                        vertex[k] = count;
                        k = follower(k);
                    }
                    count += 1;
                }
            }
            vertex
        };
        let before = rounds(&mut (0..h));
        let after = rounds(&mut old.iter().copied());
        for (k, i) in old.iter().enumerate() {
            out[at + 2 * k..at + 2 * k + 2].copy_from_slice(&file[at + 2 * i..at + 2 * i + 2]);
            let f = if follower(*i) == 65535 { 65535 } else { new[follower(*i)] as u16 };
            out[at + 2 * h + 2 * k..at + 2 * h + 2 * k + 2].copy_from_slice(&f.to_le_bytes());
            if f != 65535 {
                for part in [4 * h, 4 * h + 4 * v] {
                    let (from, to) = (at + part + 4 * before[*i], at + part + 4 * after[*i]);
                    out[to..to + 4].copy_from_slice(&file[from..from + 4]);
                }
            }
        }
        at += 4 * h + 8 * v;
    }
    out
}

/// Two halfedges change places in the round of a slot: the file is as before, but its line work may not be flat.
fn twisted(file: &[u8], dice: &mut Dice) -> Vec<u8> {
    let u16_at = |k: usize| u16::from_le_bytes([file[k], file[k + 1]]) as usize;
    let s = u16_at(0);
    let j = dice.below(s as u64) as usize;
    let (_, h) = (u16_at(2 + 4 * j), u16_at(4 + 4 * j));
    let at = 2 + 4 * s + 4 * (s - 1) + (0..j).map(|i| 4 * u16_at(4 + 4 * i) + 8 * u16_at(2 + 4 * i)).sum::<usize>();
    let mut out = file.to_vec();
    if h == 0 {
        return out;
    }
    let follower = |i: usize| u16_at(at + 2 * h + 2 * i);
    let i = dice.below(h as u64) as usize;
    if follower(i) == 65535 {
        return out;
    }
    let (a, b) = (follower(i), follower(follower(i)));
    let c = follower(b);
    if a == i || b == i || c == i {
        return out;
    }
    for (from, to) in [(i, b), (b, a), (a, c)] {
        let k = at + 2 * h + 2 * from;
        out[k..k + 2].copy_from_slice(&(to as u16).to_le_bytes());
    }
    out
}

/// One or a few numbers of the file changed, some bytes lost or doubled.
fn damaged(file: &[u8], dice: &mut Dice) -> Vec<u8> {
    let mut out = file.to_vec();
    for _ in 0..=dice.below(2) {
        if out.is_empty() {
            return out;
        }
        let k = dice.below(out.len() as u64) as usize;
        match dice.below(12) {
            0 => out.truncate(k),
            1 => out.push(dice.below(256) as u8),
            2..=4 => out[k] ^= 1 << dice.below(8),
            5..=7 => {
                let from = dice.below(out.len() as u64) as usize & !1;
                let to = k & !1;
                if from + 1 < out.len() && to + 1 < out.len() {
                    (out[to], out[to + 1]) = (out[from], out[from + 1]);
                }
            }
            8..=10 => {
                let from = dice.below(out.len() as u64) as usize & !1;
                let to = k & !1;
                if from + 1 < out.len() && to + 1 < out.len() {
                    out.swap(from, to);
                    out.swap(from + 1, to + 1);
                }
            }
            _ => out[k] = dice.below(256) as u8,
        }
    }
    out
}

fn told(title: &str, seen: &[u64; 64]) {
    let list: Vec<String> = seen.iter().enumerate().filter(|(_, n)| **n > 0).map(|(k, n)| format!("{k}: {n}")).collect();
    println!("{title} ({} in all; 0 is done or accepted): {}", seen.iter().sum::<u64>(), list.join(", "));
}

fn main() {
    let rounds: u64 = std::env::args().nth(1).and_then(|n| n.parse().ok()).unwrap_or(2000);
    let mut dice = Dice(0x9E37_79B9_7F4A_7C15);
    let (mut calls_seen, mut files_seen) = ([0; 64], [0; 64]);
    let empty = [1, 0, 0, 0, 0, 0];
    for round in 0..rounds {
        // now and then a long list on a wide sheet, which fills its slots
        let (length, reach) = if round % 50 == 0 { (900, 40) } else { (dice.within(1, 120), dice.within(2, 12)) };
        let mut shape = Shape { last: 1, reach: reach as i32, sheet: Sheet::new(), held: Vec::new() };
        let calls = shape.list(&mut dice, length);
        let written = compare_list(&empty, &calls, &mut calls_seen);
        let file = shuffled(&written, &mut dice);
        compare_file(&file, &mut files_seen);
        for _ in 0..12 {
            compare_file(&damaged(&file, &mut dice), &mut files_seen);
            compare_file(&twisted(&file, &mut dice), &mut files_seen);
        }
        let more = shape.list(&mut dice, length);
        compare_list(&file, &more, &mut calls_seen);
    }
    told("answers to calls", &calls_seen);
    told("verdicts of files", &files_seen);
    println!("{rounds} rounds: both agree");
}
