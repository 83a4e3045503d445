//! Writes the inputs and the answers that crates/field_vectors replays: `field_vectors FOLDER`.
//! The tables are those of the original's ExtentFieldCache with the stand-ins.
use oracle::{extent::open, halves, random::Random, rooms, SpatialDescriptor, SpatialLayout};
use std::{env, fmt::Write, fs, path::Path};

const PLACE: usize = 35664;
const STORE: usize = 285312;

fn packed(name: &str) -> u64 {
    name.bytes().rev().fold(0, |n, b| n << 8 | u64::from(b))
}

fn hash(list: &[f64]) -> u64 {
    list.iter().fold(0, |h: u64, x| {
        let b = if x.is_nan() { 0x7ff8_0000_0000_0000 } else { x.to_bits() };
        let h = (h * 65599 + (b & 0xffff_ffff)) % 4294967291;
        (h * 65599 + (b >> 32)) % 4294967291
    })
}

struct Script {
    inputs: String,
    answers: String,
    store: Vec<f64>,
}

impl Script {
    fn put(&mut self, command: usize, value: u64) {
        writeln!(self.inputs, "{command:03} {value:016x}").unwrap();
    }
    fn layout(&mut self, l: &SpatialLayout) {
        self.put(900, 0);
        for c in &l.channels {
            self.put(901, packed(&c.identity));
            self.put(902, u64::from(c.enabled) | u64::from(c.lfe) << 1);
        }
        for layer in &l.topology.layers {
            self.put(903, layer.z.to_bits());
            for row in &layer.rows {
                self.put(904, row.y.to_bits());
                for a in &row.anchors {
                    self.put(901, packed(&a.identity));
                    self.put(905, a.x.to_bits());
                }
            }
        }
    }
    fn spread(&mut self, x: f64) {
        self.put(910, x.to_bits());
        self.store.fill(x);
    }
    fn part(&mut self, from: usize, count: usize) {
        self.put(921, (from as u64) << 32 | count as u64);
        writeln!(self.answers, "{}", hash(&self.store[from..from + count])).unwrap();
    }
    fn number(&mut self, i: usize) {
        self.put(922, i as u64);
        writeln!(self.answers, "{:016x}", self.store[i].to_bits()).unwrap();
    }
    /// One projection over place p.
    fn project(&mut self, p: usize, l: &SpatialLayout, field: &open::Field, extent: [f64; 3], centre: [f64; 3], points: &[f64]) {
        for (i, x) in extent.iter().chain(&centre).enumerate() {
            self.put(930 + i, x.to_bits());
        }
        self.put(937, 0);
        for x in points {
            self.put(936, x.to_bits());
        }
        self.put(940, p as u64);
        let (mean, radius) = match open::read(extent) {
            Ok(read) => read,
            Err(no) => {
                writeln!(self.answers, "{no}").unwrap();
                return;
            }
        };
        writeln!(self.answers, "{mean} {:016x}", radius.to_bits()).unwrap();
        let descriptor = SpatialDescriptor::wide(centre, extent, None, points);
        for gain in field.project(l, &descriptor) {
            let bits = if gain.is_nan() { 0x7ff8_0000_0000_0000 } else { gain.to_bits() };
            writeln!(self.answers, "{bits:016x}").unwrap();
        }
    }
    /// One projection over place p with a radius by itself, and with the point gains that were brought last.
    fn project_at(&mut self, p: usize, l: &SpatialLayout, field: &open::Field, radius: f64, centre: [f64; 3], points: &[f64]) {
        for (i, x) in centre.iter().enumerate() {
            self.put(933 + i, x.to_bits());
        }
        self.put(942, radius.to_bits());
        self.put(943, p as u64);
        let descriptor = SpatialDescriptor::wide(centre, [0.0; 3], None, points);
        for gain in field.project_at(l, &descriptor, radius) {
            writeln!(self.answers, "{:016x}", gain.to_bits()).unwrap();
        }
    }
    /// Fills a place; answers the offsets of the nine tables.
    fn fill(&mut self, p: usize, l: &SpatialLayout) -> [(usize, usize); 9] {
        self.put(920, p as u64);
        writeln!(self.answers, "1").unwrap();
        let n = l.channels.iter().filter(|c| c.enabled && !c.lfe).count();
        let tables = open::tables(l);
        let mut at = PLACE * p;
        std::array::from_fn(|i| {
            let size = [700, 700, 80, 1, 1, 1, 1, 1, 1][i] * n;
            let from = at;
            at += size;
            self.store[from..from + tables[i].len()].copy_from_slice(&tables[i]);
            (from, size)
        })
    }
}

/// A coordinate of a centre: inside, at a wall, outside, at a knot, -0.
fn coordinate(random: &mut Random) -> f64 {
    match random.below(12) {
        0 => 0.0,
        1 => 1.0,
        2 => -0.0,
        3 => -random.unit(),
        4 => 1.0 + random.unit(),
        5 => random.below(35) as f64 / 34.0,
        6 => random.below(4) as f64 / 3.0,
        7 => random.unit() * 0.01,
        8 => 1.0 - random.unit() * 0.01,
        _ => random.unit(),
    }
}

/// An extent: small ones, whole ones, and such whose radius is near 0.05, 0.125 or a knot's.
fn extent(random: &mut Random) -> [f64; 3] {
    let means = [0, 1, 2, 3, 4, 6553, 6554, 4369, 4370, 4371, 9175, 9362, 10922, 16384, 24576, 24577, 32766, 32767];
    match random.below(4) {
        0 => {
            let v = means[random.below(means.len() as u64) as usize] as f64 / 32768.0;
            [v, v, v]
        }
        1 => [random.unit(), random.unit(), random.unit()],
        2 => [random.unit() * 0.01, 0.0, -0.0],
        _ => {
            let v = random.unit() * 0.3;
            [v, v, v]
        }
    }
}

/// A point gain: from 0 to 5/4, now and then an end, -0 or a subnormal.
fn point(random: &mut Random) -> f64 {
    match random.below(10) {
        0 => 0.0,
        1 => -0.0,
        2 => 1.25,
        3 => f64::from_bits(random.below(1 << 40)),
        4 => 1.0,
        _ => random.unit() * 1.25,
    }
}

/// Fills the eight places in turn, and once a ninth, which there is not; of each room the hashes of
/// its tables, of the place and, now and then, of the store; all numbers of two centres and radii for
/// the first `whole` rooms.
fn tables(s: &mut Script, random: &mut Random, list: &[SpatialLayout], whole: usize) {
    for (i, l) in list.iter().enumerate() {
        s.layout(l);
        if i == 3 {
            s.put(920, 8);
            s.answers.push_str("0\n");
        }
        let p = i % 8;
        for (from, size) in s.fill(p, l) {
            s.part(from, size);
        }
        s.part(PLACE * p, PLACE);
        if i % 8 == 7 {
            s.part(0, STORE);
        }
        if i < whole {
            let n = l.channels.iter().filter(|c| c.enabled && !c.lfe).count();
            for knot in [17 * 20 + 3, random.below(700) as usize] {
                for k in 0..n {
                    s.number(PLACE * p + knot * n + k);
                    s.number(PLACE * p + (700 + knot) * n + k);
                    s.number(PLACE * p + (1400 + knot % 80) * n + k);
                }
            }
        }
    }
    s.part(0, STORE);
}

/// Projections over the rooms' fields, `count` for each.
fn projections(s: &mut Script, random: &mut Random, list: &[SpatialLayout], count: usize) {
    for (i, l) in list.iter().enumerate() {
        s.layout(l);
        let p = i % 8;
        s.fill(p, l);
        let mut field = open::Field::build(l);
        let n = l.channels.iter().filter(|c| c.enabled && !c.lfe).count();
        for _ in 0..count {
            let points: Vec<f64> = (0..n).map(|_| point(random)).collect();
            let centre = [coordinate(random), coordinate(random), coordinate(random)];
            s.project(p, l, &field, extent(random), centre, &points);
        }
        // sums that overflow or vanish: chosen numbers in the table of X
        if i % 6 == 0 {
            for value in [f64::MAX, f64::MIN_POSITIVE, 0.0, -1.0, f64::INFINITY, f64::NAN, 1e-200] {
                for knot in 0..700 {
                    for k in 0..n.min(2) {
                        field.set_x(knot * n + k, value);
                    }
                }
                for knot in [6 * 20 + 5, 6 * 20 + 6, 7 * 20 + 5, 7 * 20 + 6] {
                    for k in 0..n.min(2) {
                        s.put(938, (PLACE * p + knot * n + k) as u64);
                        s.put(939, value.to_bits());
                    }
                }
                let points: Vec<f64> = (0..n).map(|_| point(random)).collect();
                s.project(p, l, &field, [0.45, 0.45, 0.45], [0.2, 0.5, 0.4], &points);
            }
        }
    }
}

/// Radii that no extent has: those that the tests of blend, lambda, kernel and shaping compare with, and the doubles
/// next to them. The centre is inside, and near each wall at distances on both sides of those that lambda and the
/// kernel's test compare with.
fn radii(s: &mut Script, list: &[&SpatialLayout]) {
    for l in list {
        s.layout(l);
        s.fill(0, l);
        let field = open::Field::build(l);
        let n = l.channels.iter().filter(|c| c.enabled && !c.lfe).count();
        let points: Vec<f64> = (0..n).map(|k| (k + 1) as f64 / 32.0).collect();
        s.put(937, 0);
        for x in &points {
            s.put(936, x.to_bits());
        }
        for limit in [0.000025, 0.05, 0.125] {
            for radius in halves::beside(limit) {
                s.project_at(0, l, &field, radius, [0.5, 0.5, 0.25], &points);
                let tie = 4.0 * radius;
                for d in [tie / 2.0, tie, 2.0 * tie, 0.2].into_iter().filter(|&d| d <= 0.5) {
                    for centre in [[d, 0.5, 0.25], [1.0 - d, 0.5, 0.25], [0.5, d, 0.25], [0.5, 1.0 - d, 0.25], [0.5, 0.5, 1.0 - d]] {
                        s.project_at(0, l, &field, radius, centre, &points);
                    }
                }
            }
        }
    }
}

fn main() {
    let folder = env::args().nth(1).expect("the folder to write to");
    let mut s = Script { inputs: String::new(), answers: String::new(), store: vec![0.0; STORE] };
    let mut random = Random(11);
    // no layout, no such place
    s.put(920, 0);
    s.answers.push_str("0\n");
    let mut list = rooms::real();
    for i in 0..56 {
        list.push(rooms::random(&mut random, [4, 8, 12, 24][i % 4]));
    }
    s.spread(-7.25);
    tables(&mut s, &mut random, &list, 9);
    projections(&mut s, &mut random, &list, 40);
    let past_their_ends = [
        [f64::NAN, 0.0, 0.0],
        [0.0, 1.5, 0.0],
        [0.0, 0.0, -0.1],
        [f64::INFINITY, 0.0, 0.0],
        [-0.0, f64::NAN, f64::INFINITY],
        [-0.0, 1.0, 1.0 + f64::EPSILON],
        [-f64::from_bits(1), 0.0, f64::NAN],
        [2.0; 3],
    ];
    for e in past_their_ends {
        let l = &list[0];
        let field = open::Field::build(l);
        s.layout(l);
        s.project(0, l, &field, e, [0.5; 3], &[1.0]);
    }
    // rooms with twins
    let mut twins = rooms::old();
    for i in 0..14 {
        twins.push(rooms::twinned(&mut random, [4, 8, 12, 20][i % 4]));
    }
    s.spread(0.75);
    tables(&mut s, &mut random, &twins, 10);
    projections(&mut s, &mut random, &twins, 8);
    // components that lie halfway between two whole numbers of 1 / 32768, or next to that
    for l in [&list[2], &list[5]] {
        s.layout(l);
        s.fill(0, l);
        let field = open::Field::build(l);
        let n = l.channels.iter().filter(|c| c.enabled && !c.lfe).count();
        for i in 0..60 {
            let points: Vec<f64> = (0..n).map(|_| point(&mut random)).collect();
            let centre = [coordinate(&mut random), coordinate(&mut random), coordinate(&mut random)];
            let v = halves::near(&mut random);
            let extent = if i % 2 == 0 { [v; 3] } else { [v, halves::near(&mut random), halves::near(&mut random)] };
            s.project(0, l, &field, extent, centre, &points);
        }
    }
    radii(&mut s, &[&list[2], &list[5], &twins[3]]);
    fs::write(Path::new(&folder).join("stdin"), s.inputs).unwrap();
    fs::write(Path::new(&folder).join("stdout"), s.answers).unwrap();
}
