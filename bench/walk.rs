// Cost of a step of a walk, in the proved engine and in plain Rust over the same kind of records with the same index.
// Prints ratios: what matters is that they hold on any machine, not the nanoseconds.
use std::hint::black_box;
use std::time::Instant;

unsafe extern "C" {
    fn bench_walk_table(edges: u16, steps: u32) -> i64;
    fn bench_walk_sheet(edges: u16, steps: u32) -> i64;
}

const SLOTS: usize = 4000;

#[derive(Clone, Copy, Default)]
struct Halfedge {
    follower: i16,
    predecessor: i16,
    _x: i32,
    _y: i32,
    index: [u16; 3],
}

struct Plain {
    rows: Vec<Halfedge>,
}

impl Plain {
    fn slot(&self, h: i16) -> usize {
        let k = (h + 4095) as usize;
        self.rows[k / 3].index[k % 3] as usize
    }

    fn note(&mut self, h: i16, slot: usize) {
        let k = (h + 4095) as usize;
        self.rows[k / 3].index[k % 3] = slot as u16;
    }

    // The chain of edges 1 to n: at each inner point -(e - 1) and e follow one another.
    fn chain(n: i16) -> Plain {
        let mut t = Plain { rows: vec![Halfedge::default(); SLOTS] };
        for e in 1..=n {
            t.note(e, 2 * e as usize - 1);
            t.note(-e, 2 * e as usize);
        }
        for e in 1..=n {
            let before = if e == 1 { 1 } else { 1 - e };
            let after = if e == n { -n } else { e + 1 };
            let (west, east) = (t.slot(e) - 1, t.slot(-e) - 1);
            t.rows[west].follower = before;
            t.rows[west].predecessor = before;
            t.rows[east].follower = after;
            t.rows[east].predecessor = after;
        }
        t
    }

    fn next(&self, h: i16) -> i16 {
        if self.slot(h) == 0 {
            return 0;
        }
        match self.slot(-h) {
            0 => 0,
            s => self.rows[s - 1].predecessor,
        }
    }

    fn walk(&self, steps: u32) -> i64 {
        let mut x = 1;
        let mut sum = 0i64;
        for _ in 0..steps {
            x = self.next(x);
            sum = sum.wrapping_add(x as i64);
        }
        sum
    }
}

// The least of several times of one run, in nanoseconds.
fn least(mut run: impl FnMut() -> i64) -> f64 {
    (0..7)
        .map(|_| {
            let start = Instant::now();
            black_box(run());
            start.elapsed().as_nanos() as f64
        })
        .fold(f64::MAX, f64::min)
}

type Walk = unsafe extern "C" fn(u16, u32) -> i64;

// The cost of one step: a walk less the time to draw what it walks in.
fn proved_step(walk: Walk, edges: u16, steps: u32) -> f64 {
    let with = least(|| unsafe { walk(black_box(edges), steps) });
    let without = least(|| unsafe { walk(black_box(edges), 0) });
    (with - without) / steps as f64
}

fn plain_step(edges: i16, steps: u32) -> f64 {
    let t = Plain::chain(edges);
    least(|| black_box(&t).walk(steps)) / steps as f64
}

fn compare(name: &str, walk: Walk, full_edges: u16) {
    let steps = 20_000_000;
    for edges in [2, full_edges] {
        let sum = unsafe { walk(edges, 999_983) };
        assert_eq!(sum, Plain::chain(edges as i16).walk(999_983), "both walk alike");
    }
    let (small, full) = (proved_step(walk, 2, steps), proved_step(walk, full_edges, steps));
    let (plain_small, plain_full) = (plain_step(2, steps), plain_step(full_edges as i16, steps));
    println!("{name}: a step among {full_edges} edges costs {:.2} times a step among two (plain Rust: {:.2})", full / small, plain_full / plain_small);
    println!("{name}: a step costs {:.2} times plain Rust among {full_edges} edges, {:.2} times among two", full / plain_full, small / plain_small);
}

fn main() {
    compare("table", bench_walk_table, 2000);
    compare("sheet of 32 strips", bench_walk_sheet, 1960);
}
