//! Cost of each call, in the proved engine and in plain Rust over the same kind of records with the same index, on a nearly empty and on a full sheet of 32 strips.
//! Prints ratios: what matters is that they hold on any machine, not the nanoseconds.
mod engine;
mod plain;

use engine::{Call, List};
use plain::{Point, Sheet};
use std::hint::black_box;
use std::time::Instant;

/// The least of several times of one run, in nanoseconds.
fn least(mut run: impl FnMut()) -> f64 {
    (0..7)
        .map(|_| {
            let start = Instant::now();
            run();
            start.elapsed().as_nanos() as f64
        })
        .fold(f64::MAX, f64::min)
}

/// A chain of edges from west to east, in 32 strips.
fn chain(edges: u16) -> Vec<u8> {
    let mut sheet = Sheet::new();
    for e in 1..=edges {
        let p = Point { x: e as i32, y: 0 };
        let done = if e == 1 { sheet.start(1, Point { x: 0, y: 0 }, p) } else { sheet.sprout(e, 1 - e as i16, p) };
        done.expect("an edge of the chain");
    }
    for k in 1..32 {
        sheet.cut(60 * k).expect("a border");
    }
    sheet.write()
}

fn at(x: i32, y: i32) -> Point {
    Point { x, y }
}

/// What is measured: a name, and the calls of one turn, which leaves the sheet as it was.
fn turns() -> Vec<(&'static str, Vec<Call>)> {
    let remove = Call::Remove(4095);
    let start = Call::Start(4094, at(10, 5), at(20, 5));
    vec![
        ("start, remove", vec![Call::Start(4095, at(10, 5), at(20, 5)), remove]),
        ("sprout, remove", vec![Call::Sprout(4095, 1, at(10, 5)), remove]),
        ("join of one loop, remove", vec![Call::Join(4095, 1, 2), remove]),
        ("start, join of two pieces, remove, remove", vec![start, Call::Join(4095, 1, 4094), remove, Call::Remove(4094)]),
        ("start, split, remove, remove", vec![start, Call::Split(4094, 4095, at(15, 5)), remove, Call::Remove(4094)]),
        ("cut, knit", vec![Call::Knit(60), Call::Cut(60)]),
        ("counts", vec![Call::Count]),
    ]
}

/// Nanoseconds of one turn: a list of many less an empty list, which reads and writes the same file.
fn proved(file: &[u8], turn: &[Call], times: usize) -> f64 {
    let mut many = List::new(&turn.repeat(times));
    assert!(many.run(file) >= 0, "the file is accepted");
    assert!(many.answers().iter().all(|a| a.number == 0), "every call is done");
    let mut none = List::new(&[]);
    let with = least(|| assert!(black_box(many.run(black_box(file))) >= 0));
    let without = least(|| assert!(black_box(none.run(black_box(file))) >= 0));
    (with - without) / times as f64
}

fn in_plain_rust(file: &[u8], turn: &[Call], times: usize) -> f64 {
    let mut sheet = Sheet::read(file).expect("the file is accepted");
    least(|| {
        for _ in 0..times {
            for call in turn {
                black_box(black_box(*call).carry(&mut sheet));
            }
        }
    }) / times as f64
}

fn main() {
    let (small, full) = (chain(2), chain(1960));
    for (name, turn) in turns() {
        let times = if name == "cut, knit" || name == "counts" { 40 } else { 400 };
        let (a, b) = (proved(&small, &turn, times), proved(&full, &turn, times));
        let (c, d) = (in_plain_rust(&small, &turn, times), in_plain_rust(&full, &turn, times));
        println!("{name}: {:.2} times plain Rust among two edges, {:.2} times on a full sheet ({:.1} µs there)", a / c, b / d, b / 1000.0);
    }
    let mut none = List::new(&[]);
    let through = least(|| assert!(black_box(none.run(black_box(&full))) >= 0));
    let plainly = least(|| {
        black_box(Sheet::read(black_box(&full)).expect("accepted").write());
    });
    println!("a full file read and written: {:.2} times plain Rust ({:.1} ms)", through / plainly, through / 1e6);
}
