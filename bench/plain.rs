//! The strip sheet engine once more, in plain Rust, written from the rules in docs/.
//! It shares no code with the proved engine: the comparison holds the two against each other, and the benchmarks take this one as their measure.
#![allow(dead_code)]

pub const TOP: i16 = 4095;
pub const SLOTS: usize = 4000;
pub const STRIPS: usize = 32;
pub const FAR: i32 = 1_000_000;
pub const NONE: u16 = 65535;

#[derive(Clone, Copy, PartialEq, Eq, Debug, Default)]
pub struct Point {
    pub x: i32,
    pub y: i32,
}

fn in_range(z: i32) -> bool {
    (-FAR..=FAR).contains(&z)
}

impl Point {
    fn on_sheet(self) -> bool {
        in_range(self.x) && in_range(self.y)
    }

    fn west_of(self, other: Point) -> bool {
        (self.x, self.y) < (other.x, other.y)
    }
}

/// One slot: a halfedge in one strip, with three entries of the index from names to slots beside it.
#[derive(Clone, Copy, Default)]
pub struct Record {
    strip: u16,
    name: i16,
    follower: i16,
    predecessor: i16,
    x: i32,
    y: i32,
    index: [u16; 3],
}

#[derive(Clone, Copy, PartialEq, Eq, Debug)]
pub struct Counts {
    pub vertices: u16,
    pub edges: u16,
    pub loops: u16,
    pub pieces: u16,
}

#[derive(Clone, Copy, PartialEq, Eq, Debug)]
pub struct Fault {
    pub layer: u8,
    pub number: u8,
    pub strip: u16,
    pub place: u16,
}

fn fault(layer: u8, number: u8, strip: usize, place: usize) -> Fault {
    Fault { layer, number, strip: strip as u16, place: place as u16 }
}

pub struct Sheet {
    records: Vec<Record>,
    pub borders: Vec<i32>,
    used: usize,
    free_from: usize,
}

// ---- memory
impl Sheet {
    pub fn new() -> Sheet {
        Sheet { records: vec![Record::default(); SLOTS], borders: Vec::new(), used: 0, free_from: 0 }
    }

    fn slot(&self, h: i16) -> usize {
        if h == 0 || h < -TOP || h > TOP {
            return 0;
        }
        let k = (h + TOP) as usize;
        self.records[k / 3].index[k % 3] as usize
    }

    fn note(&mut self, h: i16, slot: usize) {
        let k = (h + TOP) as usize;
        self.records[k / 3].index[k % 3] = slot as u16;
    }

    pub fn holds(&self, h: i16) -> bool {
        self.slot(h) != 0
    }

    pub fn follower(&self, h: i16) -> i16 {
        match self.slot(h) {
            0 => 0,
            s => self.records[s - 1].follower,
        }
    }

    pub fn predecessor(&self, h: i16) -> i16 {
        match self.slot(h) {
            0 => 0,
            s => self.records[s - 1].predecessor,
        }
    }

    pub fn point(&self, h: i16) -> Option<Point> {
        match self.slot(h) {
            0 => None,
            s => Some(Point { x: self.records[s - 1].x, y: self.records[s - 1].y }),
        }
    }

    pub fn next(&self, h: i16) -> i16 {
        if self.slot(h) == 0 { 0 } else { self.predecessor(-h) }
    }

    fn take_slot(&mut self) -> usize {
        let mut s = self.free_from;
        while self.records[s].name != 0 {
            s += 1;
        }
        self.free_from = s + 1;
        self.used += 1;
        s + 1
    }

    fn free_slot(&mut self, slot: usize) {
        let index = self.records[slot - 1].index;
        self.records[slot - 1] = Record { index, ..Record::default() };
        self.free_from = self.free_from.min(slot - 1);
        self.used -= 1;
    }

    fn put(&mut self, slot: usize, row: Record) {
        let index = self.records[slot - 1].index;
        self.records[slot - 1] = Record { index, ..row };
    }

    pub fn strip_of(&self, x: i32) -> usize {
        1 + self.borders.iter().take_while(|b| x >= **b).count()
    }

    fn strips_of_edge(&self, e: u16) -> (usize, usize) {
        let (p, q) = (self.point(e as i16).unwrap(), self.point(-(e as i16)).unwrap());
        (self.strip_of(p.x), self.strip_of(q.x))
    }

    pub fn edges(&self) -> impl Iterator<Item = u16> + '_ {
        (1..=TOP as u16).filter(|e| self.holds(*e as i16))
    }
}

// ---- changes
impl Sheet {
    fn fits(&self, p: Point, q: Point) -> bool {
        let (a, b) = (self.strip_of(p.x), self.strip_of(q.x));
        self.used + 2 * (a.abs_diff(b) + 1) <= SLOTS
    }

    fn vertex_at(&self, p: Point) -> bool {
        self.records.iter().any(|r| r.follower != 0 && r.x == p.x && r.y == p.y)
    }

    fn plant(&mut self, e: u16) {
        let (a, b) = self.strips_of_edge(e);
        for i in a..=b {
            for (name, home) in [(e as i16, a), (-(e as i16), b)] {
                if i != home {
                    let slot = self.take_slot();
                    self.put(slot, Record { strip: i as u16, name, ..Record::default() });
                }
            }
        }
    }

    fn uproot(&mut self, e: u16) {
        let (a, b) = self.strips_of_edge(e);
        let mut left = 2 * (b - a);
        for s in 1..=SLOTS {
            if left == 0 {
                return;
            }
            let r = self.records[s - 1];
            if r.name.unsigned_abs() == e && r.follower == 0 {
                self.free_slot(s);
                left -= 1;
            }
        }
    }

    fn hook(&mut self, h: i16, corner: Option<i16>, p: Point) {
        let slot = self.take_slot();
        let (follower, predecessor) = match corner {
            None => (h, h),
            Some(c) => {
                let after = self.follower(c);
                let (at, behind) = (self.slot(c), self.slot(after));
                self.records[at - 1].follower = h;
                self.records[behind - 1].predecessor = h;
                (after, c)
            }
        };
        let strip = self.strip_of(p.x) as u16;
        self.put(slot, Record { strip, name: h, follower, predecessor, x: p.x, y: p.y, index: [0; 3] });
        self.note(h, slot);
    }

    fn unhook(&mut self, h: i16) {
        let (f, p) = (self.follower(h), self.predecessor(h));
        let (at, behind) = (self.slot(p), self.slot(f));
        self.records[at - 1].follower = f;
        self.records[behind - 1].predecessor = p;
        let slot = self.slot(h);
        self.free_slot(slot);
        self.note(h, 0);
    }

    fn hang(&mut self, e: u16, p: (Point, Option<i16>), q: (Point, Option<i16>)) {
        let (west, east) = if p.0.west_of(q.0) { (p, q) } else { (q, p) };
        self.hook(e as i16, west.1, west.0);
        self.hook(-(e as i16), east.1, east.0);
        self.plant(e);
    }
}

// ---- calls: 0 for done, else the number of the refusal
impl Sheet {
    fn new_number(&self, e: u16) -> Result<(), u8> {
        if e < 1 || e > TOP as u16 {
            return Err(21);
        }
        if self.holds(e as i16) { Err(22) } else { Ok(()) }
    }

    fn holds_edge(&self, e: u16) -> bool {
        e <= TOP as u16 && self.holds(e as i16)
    }

    fn new_point(&self, p: Point) -> Result<(), u8> {
        if !p.on_sheet() || self.vertex_at(p) { Err(24) } else { Ok(()) }
    }

    pub fn start(&mut self, e: u16, p: Point, q: Point) -> Result<(), u8> {
        self.new_number(e)?;
        self.new_point(p)?;
        self.new_point(q)?;
        if p == q {
            return Err(25);
        }
        if !self.fits(p, q) {
            return Err(28);
        }
        self.hang(e, (p, None), (q, None));
        Ok(())
    }

    pub fn sprout(&mut self, e: u16, c: i16, p: Point) -> Result<(), u8> {
        self.new_number(e)?;
        let from = self.point(c).ok_or(23)?;
        self.new_point(p)?;
        if !self.fits(from, p) {
            return Err(28);
        }
        self.hang(e, (from, Some(c)), (p, None));
        Ok(())
    }

    pub fn join(&mut self, e: u16, c: i16, d: i16) -> Result<(), u8> {
        self.new_number(e)?;
        let p = self.point(c).ok_or(23)?;
        let q = self.point(d).ok_or(23)?;
        if p == q {
            return Err(25);
        }
        if !self.same_loop(c, d) && self.same_piece(c, d) {
            return Err(27);
        }
        if !self.fits(p, q) {
            return Err(28);
        }
        self.hang(e, (p, Some(c)), (q, Some(d)));
        Ok(())
    }

    pub fn split(&mut self, e: u16, f: u16, p: Point) -> Result<(), u8> {
        self.new_number(f)?;
        if !self.holds_edge(e) {
            return Err(23);
        }
        self.new_point(p)?;
        let (a, b) = (self.point(e as i16).unwrap(), self.point(-(e as i16)).unwrap());
        if !(a.west_of(p) && p.west_of(b)) {
            return Err(26);
        }
        if !self.fits(p, p) {
            return Err(28);
        }
        self.uproot(e);
        let (h, g) = (e as i16, f as i16);
        // -f takes the place that -e has, and -e goes to the round at p
        self.hook(-g, Some(-h), b);
        self.unhook(-h);
        self.hook(-h, None, p);
        self.hook(g, Some(-h), p);
        self.plant(e);
        self.plant(f);
        Ok(())
    }

    pub fn remove(&mut self, e: u16) -> Result<(), u8> {
        if !self.holds_edge(e) {
            return Err(23);
        }
        self.uproot(e);
        self.unhook(e as i16);
        self.unhook(-(e as i16));
        Ok(())
    }

    fn recut(&mut self, borders: Vec<i32>) {
        for s in 1..=SLOTS {
            if self.records[s - 1].name != 0 && self.records[s - 1].follower == 0 {
                self.free_slot(s);
            }
        }
        self.borders = borders;
        for s in 0..SLOTS {
            if self.records[s].name != 0 {
                self.records[s].strip = self.strip_of(self.records[s].x) as u16;
            }
        }
        let edges: Vec<u16> = self.edges().collect();
        for e in edges {
            self.plant(e);
        }
    }

    pub fn cut(&mut self, x: i32) -> Result<(), u8> {
        if !in_range(x) {
            return Err(30);
        }
        if self.borders.contains(&x) {
            return Err(31);
        }
        if self.borders.len() + 2 > STRIPS {
            return Err(32);
        }
        let crossing = self.edges().filter(|e| self.point(*e as i16).unwrap().x < x && self.point(-(*e as i16)).unwrap().x >= x).count();
        if self.used + 2 * crossing > SLOTS {
            return Err(28);
        }
        let mut borders = self.borders.clone();
        borders.push(x);
        borders.sort();
        self.recut(borders);
        Ok(())
    }

    pub fn knit(&mut self, x: i32) -> Result<(), u8> {
        if !in_range(x) {
            return Err(30);
        }
        if !self.borders.contains(&x) {
            return Err(31);
        }
        let borders = self.borders.iter().copied().filter(|b| *b != x).collect();
        self.recut(borders);
        Ok(())
    }
}

// ---- questions
fn mark(marks: &mut [bool], h: i16) -> bool {
    let k = (h + TOP) as usize;
    !std::mem::replace(&mut marks[k], true)
}

impl Sheet {
    fn same_loop(&self, c: i16, d: i16) -> bool {
        let mut x = c;
        loop {
            if x == d {
                return true;
            }
            x = self.next(x);
            if x == c {
                return false;
            }
        }
    }

    fn flood(&self, from: i16, marks: &mut [bool]) {
        let mut line = vec![from];
        mark(marks, from);
        while let Some(h) = line.pop() {
            for k in [self.follower(h), -h] {
                if mark(marks, k) {
                    line.push(k);
                }
            }
        }
    }

    fn same_piece(&self, c: i16, d: i16) -> bool {
        let mut marks = vec![false; 8191];
        self.flood(c, &mut marks);
        marks[(d + TOP) as usize]
    }

    fn classes(&self, step: impl Fn(i16) -> i16) -> u16 {
        let mut marks = vec![false; 8191];
        let mut count = 0;
        for e in self.edges() {
            for h in [e as i16, -(e as i16)] {
                if !marks[(h + TOP) as usize] {
                    count += 1;
                    let mut x = h;
                    while mark(&mut marks, x) {
                        x = step(x);
                    }
                }
            }
        }
        count
    }

    pub fn counts(&self) -> Counts {
        let mut marks = vec![false; 8191];
        let mut pieces = 0;
        for e in self.edges() {
            if !marks[(e as i16 + TOP) as usize] {
                pieces += 1;
                self.flood(e as i16, &mut marks);
            }
        }
        Counts { vertices: self.classes(|h| self.follower(h)), edges: self.edges().count() as u16, loops: self.classes(|h| self.next(h)), pieces }
    }

    pub fn flat(&self) -> bool {
        let c = self.counts();
        c.vertices as u32 + c.loops as u32 == c.edges as u32 + 2 * c.pieces as u32
    }
}

// ---- files
fn u16_at(b: &[u8], k: usize) -> u16 {
    u16::from_le_bytes([b[k], b[k + 1]])
}

fn i32_at(b: &[u8], k: usize) -> i32 {
    i32::from_le_bytes([b[k], b[k + 1], b[k + 2], b[k + 3]])
}

/// A strip of a file: its names, its followers, its points, and for each home slot its vertex.
struct Strip {
    names: Vec<i16>,
    followers: Vec<u16>,
    points: Vec<Point>,
    vertex: Vec<usize>,
}

impl Strip {
    fn read(b: &[u8], h: usize, v: usize) -> Strip {
        Strip {
            names: (0..h).map(|i| u16_at(b, 2 * i) as i16).collect(),
            followers: (0..h).map(|i| u16_at(b, 2 * h + 2 * i)).collect(),
            points: (0..v).map(|k| Point { x: i32_at(b, 4 * h + 4 * k), y: i32_at(b, 4 * h + 4 * v + 4 * k) }).collect(),
            vertex: Vec::new(),
        }
    }

    fn home(&self, i: usize) -> bool {
        self.followers[i] != NONE
    }

    fn start(&self, i: usize) -> Point {
        self.points[self.vertex[i]]
    }

    /// Numbers the rounds by their lowest slots, and tells how many there are.
    fn number(&mut self) -> usize {
        let h = self.names.len();
        self.vertex = vec![usize::MAX; h];
        let mut count = 0;
        for i in 0..h {
            if self.home(i) && self.vertex[i] == usize::MAX {
                let mut k = i;
                while self.vertex[k] == usize::MAX {
                    self.vertex[k] = count;
                    k = self.followers[k] as usize;
                }
                count += 1;
            }
        }
        count
    }

    fn ask(&mut self, number: usize, west: Option<i32>, east: Option<i32>) -> Result<(), Fault> {
        let h = self.names.len();
        let no = |q: u8, place: usize| fault(2, q, number, place);
        for i in 0..h {
            if self.names[i] == 0 || self.names[i] < -TOP || self.names[i] > TOP {
                return Err(no(6, i));
            }
        }
        let mut first = vec![usize::MAX; 8191];
        for i in (0..h).rev() {
            first[(self.names[i] + TOP) as usize] = i;
        }
        for i in 0..h {
            if first[(self.names[i] + TOP) as usize] != i || first[(TOP - self.names[i]) as usize] == usize::MAX {
                return Err(no(7, i));
            }
        }
        for i in 0..h {
            if self.home(i) && self.followers[i] as usize >= h {
                return Err(no(8, i));
            }
        }
        let mut times = vec![0; h];
        for i in 0..h {
            if self.home(i) {
                times[self.followers[i] as usize] += 1;
            }
        }
        for i in 0..h {
            if times[i] != self.home(i) as usize {
                return Err(no(9, i));
            }
        }
        if self.number() != self.points.len() {
            return Err(no(10, 0));
        }
        for (k, p) in self.points.iter().enumerate() {
            if !p.on_sheet() || west.is_some_and(|b| p.x < b) || east.is_some_and(|b| p.x >= b) {
                return Err(no(11, k));
            }
        }
        let mut order: Vec<usize> = (0..self.points.len()).collect();
        order.sort_by_key(|k| (self.points[*k].x, self.points[*k].y, *k));
        match order.windows(2).filter(|w| self.points[w[0]] == self.points[w[1]]).map(|w| w[1]).min() {
            Some(k) => Err(no(12, k)),
            None => Ok(()),
        }
    }
}

fn open(b: &[u8]) -> Result<(Vec<Strip>, Vec<i32>), Fault> {
    let no = |q: u8, strip: usize, place: usize| fault(1, q, strip, place);
    if b.len() < 2 || u16_at(b, 0) < 1 || u16_at(b, 0) as usize > STRIPS {
        return Err(no(1, 0, 0));
    }
    let s = u16_at(b, 0) as usize;
    if b.len() < 2 + 4 * s {
        return Err(no(2, 0, 0));
    }
    let sizes: Vec<(usize, usize)> = (0..s).map(|j| (u16_at(b, 2 + 4 * j) as usize, u16_at(b, 4 + 4 * j) as usize)).collect();
    let mut total = 0;
    for (j, (v, h)) in sizes.iter().enumerate() {
        total += h;
        if v > h || total > SLOTS {
            return Err(no(3, j + 1, 0));
        }
    }
    let mut at = 2 + 4 * s + 4 * (s - 1);
    if b.len() != at + sizes.iter().map(|(v, h)| 4 * h + 8 * v).sum::<usize>() {
        return Err(no(4, 0, 0));
    }
    let borders: Vec<i32> = (0..s - 1).map(|k| i32_at(b, 2 + 4 * s + 4 * k)).collect();
    for k in 0..borders.len() {
        if !in_range(borders[k]) || (k > 0 && borders[k] <= borders[k - 1]) {
            return Err(no(5, 0, k));
        }
    }
    let mut strips = Vec::new();
    for (v, h) in sizes {
        let end = at + 4 * h + 8 * v;
        strips.push(Strip::read(&b[at..end], h, v));
        at = end;
    }
    Ok((strips, borders))
}

fn ask_seams(strips: &[Strip]) -> Result<(), Fault> {
    let has: Vec<Vec<bool>> = strips
        .iter()
        .map(|s| {
            let mut has = vec![false; 8191];
            s.names.iter().for_each(|n| has[(*n + TOP) as usize] = true);
            has
        })
        .collect();
    let beyond = |j: usize, name: i16| {
        let neighbour = if name > 0 { j.checked_sub(1) } else { Some(j + 1) };
        neighbour.and_then(|k| has.get(k)).map(|h| h[(name + TOP) as usize])
    };
    let slots = || (0..strips.len()).flat_map(|j| (0..strips[j].names.len()).map(move |i| (j, i)));
    for (j, i) in slots() {
        if !strips[j].home(i) && beyond(j, strips[j].names[i]) != Some(true) {
            return Err(fault(3, 13, j + 1, i));
        }
    }
    for (j, i) in slots() {
        if strips[j].home(i) && beyond(j, strips[j].names[i]) == Some(true) {
            return Err(fault(3, 14, j + 1, i));
        }
    }
    let mut met = vec![false; 8191];
    for (j, i) in slots() {
        if strips[j].home(i) && !mark(&mut met, strips[j].names[i]) {
            return Err(fault(3, 15, j + 1, i));
        }
    }
    for (j, s) in strips.iter().enumerate() {
        let mut slot = vec![0; 8191];
        s.names.iter().enumerate().for_each(|(i, n)| slot[(*n + TOP) as usize] = i);
        for i in 0..s.names.len() {
            let other = slot[(TOP - s.names[i]) as usize];
            if s.names[i] > 0 && s.home(i) && s.home(other) && !s.start(i).west_of(s.start(other)) {
                return Err(fault(3, 16, j + 1, i));
            }
        }
    }
    Ok(())
}

impl Sheet {
    pub fn read(b: &[u8]) -> Result<Sheet, Fault> {
        let (mut strips, borders) = open(b)?;
        let count = strips.len();
        for (j, s) in strips.iter_mut().enumerate() {
            let west = if j == 0 { None } else { Some(borders[j - 1]) };
            let east = if j + 1 == count { None } else { Some(borders[j]) };
            s.ask(j + 1, west, east)?;
        }
        ask_seams(&strips)?;
        let mut sheet = Sheet::new();
        sheet.borders = borders;
        for (j, s) in strips.iter().enumerate() {
            let mut before = vec![0; s.names.len()];
            (0..s.names.len()).filter(|i| s.home(*i)).for_each(|i| before[s.followers[i] as usize] = i);
            for i in 0..s.names.len() {
                let slot = sheet.take_slot();
                let name = s.names[i];
                if s.home(i) {
                    let p = s.start(i);
                    let follower = s.names[s.followers[i] as usize];
                    sheet.put(slot, Record { strip: j as u16 + 1, name, follower, predecessor: s.names[before[i]], x: p.x, y: p.y, index: [0; 3] });
                    sheet.note(name, slot);
                } else {
                    sheet.put(slot, Record { strip: j as u16 + 1, name, ..Record::default() });
                }
            }
        }
        if sheet.flat() { Ok(sheet) } else { Err(fault(4, 17, 0, 0)) }
    }

    pub fn write(&self) -> Vec<u8> {
        let s = self.borders.len() + 1;
        let mut heads = Vec::new();
        let mut arrays = Vec::new();
        for i in 1..=s {
            let mut names = Vec::new();
            for e in self.edges() {
                let (a, b) = self.strips_of_edge(e);
                if a <= i && i <= b {
                    names.extend([e as i16, -(e as i16)]);
                }
            }
            let mut slot = vec![NONE; 8191];
            names.iter().enumerate().for_each(|(k, h)| slot[(*h + TOP) as usize] = k as u16);
            let home = |h: i16| self.strip_of(self.point(h).unwrap().x) == i;
            let mut points: Vec<Point> = Vec::new();
            let mut met = vec![false; 8191];
            for h in names.iter().copied().filter(|h| home(*h)) {
                if !met[(h + TOP) as usize] {
                    points.push(self.point(h).unwrap());
                    let mut x = h;
                    while mark(&mut met, x) {
                        x = self.follower(x);
                    }
                }
            }
            heads.extend((points.len() as u16).to_le_bytes());
            heads.extend((names.len() as u16).to_le_bytes());
            names.iter().for_each(|h| arrays.extend(h.to_le_bytes()));
            for h in &names {
                let f = if home(*h) { slot[(self.follower(*h) + TOP) as usize] } else { NONE };
                arrays.extend(f.to_le_bytes());
            }
            points.iter().for_each(|p| arrays.extend(p.x.to_le_bytes()));
            points.iter().for_each(|p| arrays.extend(p.y.to_le_bytes()));
        }
        let mut out = (s as u16).to_le_bytes().to_vec();
        out.extend(heads);
        self.borders.iter().for_each(|b| out.extend(b.to_le_bytes()));
        out.extend(arrays);
        out
    }
}
