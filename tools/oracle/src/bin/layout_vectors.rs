//! Writes the inputs and the answers that crates/layout_vectors replays: `layout_vectors FOLDER`.
//! The original has no counterpart of questions 1 to 6, so the answers are written from document 01.
use oracle::{random::Random, rooms, SpatialLayout};
use std::{collections::BTreeMap, env, fmt::Write, fs, path::Path};

fn packed(name: &str) -> u64 {
    name.bytes().rev().fold(0, |n, b| n << 8 | u64::from(b))
}

/// The fields in the order of the replay program.
#[derive(Clone)]
struct Fields([u64; 154]);

impl Fields {
    fn used(&self) -> u64 {
        self.0[0]
    }
    fn depth(&self) -> u64 {
        self.0[1]
    }
    fn channel(&self, i: usize) -> (u64, u64) {
        (self.0[2 + 2 * i], self.0[3 + 2 * i] & 3)
    }
    fn layer(&self, i: usize) -> (f64, u64) {
        (f64::from_bits(self.0[50 + 2 * i]), self.0[51 + 2 * i])
    }
    fn row(&self, i: usize) -> (f64, u64) {
        (f64::from_bits(self.0[58 + 2 * i]), self.0[59 + 2 * i])
    }
    fn anchor(&self, i: usize) -> (u64, f64) {
        (self.0[106 + 2 * i], f64::from_bits(self.0[107 + 2 * i]))
    }

    fn channels(&self) -> Vec<(u64, u64)> {
        (0..self.used().min(24) as usize).map(|i| self.channel(i)).collect()
    }
    fn active(&self) -> Vec<u64> {
        self.channels().into_iter().filter(|c| c.1 == 1).map(|c| c.0).collect()
    }
    fn layers(&self) -> Vec<(f64, u64)> {
        (0..self.depth().min(4) as usize).map(|i| self.layer(i)).collect()
    }
    fn rows(&self) -> Vec<(f64, u64)> {
        let total: u128 = self.layers().iter().map(|l| u128::from(l.1)).sum();
        (0..total.min(24) as usize).map(|i| self.row(i)).collect()
    }
    fn anchors(&self) -> Vec<(u64, f64)> {
        let total: u128 = self.rows().iter().map(|r| u128::from(r.1)).sum();
        (0..total.min(24) as usize).map(|i| self.anchor(i)).collect()
    }

    fn first_no(&self) -> u64 {
        let channels = self.channels();
        let names: Vec<u64> = channels.iter().map(|c| c.0).collect();
        if !(1..=24).contains(&self.used()) || !names.iter().all(|&n| is_name(n)) || !distinct(&names) {
            return 1;
        }
        if !(1..=4).contains(&self.depth()) {
            return 2;
        }
        let active = self.active();
        if active.is_empty() {
            return 3;
        }
        let (layers, rows, anchors) = (self.layers(), self.rows(), self.anchors());
        let total: u128 = rows.iter().map(|r| u128::from(r.1)).sum();
        if !layers.iter().all(|l| (1..=6).contains(&l.1)) || !rows.iter().all(|r| r.1 >= 1) || total > 24 {
            return 4;
        }
        let mut good = ordered(&layers.iter().map(|l| l.0).collect::<Vec<_>>());
        let (mut r, mut a) = (0, 0);
        for layer in &layers {
            let part = &rows[r..r + layer.1 as usize];
            good &= ordered(&part.iter().map(|r| r.0).collect::<Vec<_>>());
            for row in part {
                let part = &anchors[a..a + row.1 as usize];
                good &= ordered(&part.iter().map(|a| a.1).collect::<Vec<_>>());
                a += row.1 as usize;
            }
            r += layer.1 as usize;
        }
        if !good {
            return 5;
        }
        let named: Vec<u64> = anchors.iter().map(|a| a.0).collect();
        if !named.iter().all(|n| active.contains(n)) {
            return 6;
        }
        0
    }

    fn same(&self, other: &Self) -> bool {
        self.used() == other.used()
            && self.channels() == other.channels()
            && self.depth() == other.depth()
            && self.layers() == other.layers()
            && self.rows() == other.rows()
            && self.anchors() == other.anchors()
    }
}

fn is_name(n: u64) -> bool {
    let bytes = n.to_le_bytes();
    let length = bytes.iter().take_while(|b| (33..=126).contains(*b)).count();
    length > 0 && bytes[length..].iter().all(|&b| b == 0)
}

fn distinct(list: &[u64]) -> bool {
    (0..list.len()).all(|i| !list[..i].contains(&list[i]))
}

fn ordered(list: &[f64]) -> bool {
    list.iter().all(|x| x.is_finite() && (-1.0..=1.0).contains(x)) && list.windows(2).all(|w| w[0] < w[1])
}

fn fields(l: &SpatialLayout) -> Fields {
    let mut f = Fields([0; 154]);
    f.0[0] = l.channels.len() as u64;
    f.0[1] = l.topology.layers.len() as u64;
    for (i, c) in l.channels.iter().enumerate() {
        f.0[2 + 2 * i] = packed(&c.identity);
        f.0[3 + 2 * i] = u64::from(c.enabled) + 2 * u64::from(c.lfe);
    }
    let (mut r, mut a) = (0, 0);
    for (i, layer) in l.topology.layers.iter().enumerate() {
        f.0[50 + 2 * i] = layer.z.to_bits();
        f.0[51 + 2 * i] = layer.rows.len() as u64;
        for row in &layer.rows {
            f.0[58 + 2 * r] = row.y.to_bits();
            f.0[59 + 2 * r] = row.anchors.len() as u64;
            r += 1;
            for anchor in &row.anchors {
                f.0[106 + 2 * a] = packed(&anchor.identity);
                f.0[107 + 2 * a] = anchor.x.to_bits();
                a += 1;
            }
        }
    }
    f
}

/// 24 channels over four layers of six rows each, one anchor in each row.
fn full() -> Fields {
    let mut f = Fields([0; 154]);
    f.0[0] = 24;
    f.0[1] = 4;
    for i in 0..24 {
        f.0[2 + 2 * i] = packed(&format!("chan{i:04}"));
        f.0[3 + 2 * i] = 1;
        f.0[58 + 2 * i] = (-1.0 + (i % 6) as f64 * 0.4).to_bits();
        f.0[59 + 2 * i] = 1;
        f.0[106 + 2 * i] = f.0[2 + 2 * i];
        f.0[107 + 2 * i] = (i as f64 / 24.0).to_bits();
    }
    for i in 0..4 {
        f.0[50 + 2 * i] = (-1.0 + i as f64 * 0.5).to_bits();
        f.0[51 + 2 * i] = 6;
    }
    f
}

/// Writes commands and keeps what the program must then hold.
struct Script {
    inputs: String,
    answers: String,
    now: Fields,
    aside: Fields,
    name: u64,
    refused: BTreeMap<u64, usize>,
}

impl Script {
    fn put(&mut self, command: usize, value: u64) {
        writeln!(self.inputs, "{command:03} {value:016x}").unwrap();
    }
    fn set(&mut self, i: usize, value: u64) {
        if self.now.0[i] != value {
            self.now.0[i] = value;
            self.put(i, value);
        }
    }
    fn take(&mut self, f: &Fields) {
        for i in 0..154 {
            self.set(i, f.0[i]);
        }
    }
    fn ask(&mut self) {
        self.put(920, 0);
        let f = &self.now;
        let no = f.first_no();
        let (active, rows, anchors) = (f.active().len(), f.rows().len(), f.anchors().len());
        writeln!(self.answers, "{no} {active} {rows} {anchors}").unwrap();
        *self.refused.entry(no).or_default() += 1;
    }
    fn aside(&mut self) {
        self.put(910, 0);
        self.aside = self.now.clone();
    }
    fn compare(&mut self) {
        self.put(921, 0);
        writeln!(self.answers, "{}", if self.now.same(&self.aside) { "same" } else { "other" }).unwrap();
    }
    fn place(&mut self, name: u64) {
        self.put(922, name);
        let active = self.now.active();
        let place = active.iter().position(|&n| n == name).unwrap_or(active.len());
        writeln!(self.answers, "{place}").unwrap();
    }
    /// A changed layout: asked, compared with what it was, and put back.
    fn changed(&mut self, changes: &[(usize, u64)]) {
        let before = self.now.clone();
        for &(i, value) in changes {
            self.set(i, value);
        }
        self.ask();
        self.compare();
        self.take(&before);
    }

    // the layout made entry by entry
    fn empty(&mut self) {
        self.put(900, 0);
        self.now = Fields([0; 154]);
    }
    fn add_channel(&mut self, name: u64) {
        self.put(901, name);
        let at = self.now.used() as usize;
        if at < 24 {
            self.now.0[2 + 2 * at] = name;
            self.now.0[3 + 2 * at] = 1;
        }
        self.now.0[0] += 1;
    }
    fn add_layer(&mut self, z: f64) {
        self.put(902, z.to_bits());
        let at = self.now.depth() as usize;
        if at < 4 {
            self.now.0[50 + 2 * at] = z.to_bits();
            self.now.0[51 + 2 * at] = 0;
        }
        self.now.0[1] += 1;
    }
    fn add_row(&mut self, y: f64) {
        self.put(903, y.to_bits());
        let depth = self.now.depth() as usize;
        if (1..=4).contains(&depth) {
            let at = self.now.rows().len();
            self.now.0[51 + 2 * (depth - 1)] += 1;
            if at < 24 {
                self.now.0[58 + 2 * at] = y.to_bits();
                self.now.0[59 + 2 * at] = 0;
            }
        }
    }
    fn add_anchor(&mut self, name: u64, x: f64) {
        if self.name != name {
            self.name = name;
            self.put(905, name);
        }
        self.put(904, x.to_bits());
        let depth = self.now.depth() as usize;
        if (1..=4).contains(&depth) && self.now.layer(depth - 1).1 > 0 {
            let (row, at) = (self.now.rows().len() - 1, self.now.anchors().len());
            self.now.0[59 + 2 * row] += 1;
            if at < 24 {
                self.now.0[106 + 2 * at] = name;
                self.now.0[107 + 2 * at] = x.to_bits();
            }
        }
    }
    fn build(&mut self, f: &Fields) {
        self.empty();
        for (name, _) in f.channels() {
            self.add_channel(name);
        }
        let (mut r, mut a) = (0, 0);
        for (z, rows) in f.layers() {
            self.add_layer(z);
            for _ in 0..rows {
                self.add_row(f.row(r).0);
                for _ in 0..f.row(r).1 {
                    self.add_anchor(f.anchor(a).0, f.anchor(a).1);
                    a += 1;
                }
                r += 1;
            }
        }
    }
}

/// Each question refused for each reason that it can be refused for.
fn reasons(s: &mut Script) {
    let f = s.now.clone();
    let (n, d) = (f.used() as usize, f.depth() as usize);
    let (rows, anchors) = (f.rows().len(), f.anchors().len());
    let one = 1.0f64.to_bits();
    let many = u64::MAX;
    // 1
    for used in [0, 25, 26, 300, many] {
        s.changed(&[(0, used)]);
    }
    let bad = [
        0,
        packed(" FL"),
        packed("F L"),
        packed("FL\u{7f}"),
        0x80,
        0x4c_0046,
        0x0100_0000_0000_4c46,
        0x2000_0000_0000_4c46,
        0x7f4c_4c4c_4c4c_4c46,
        many,
        packed("!~!~!~!~"),
    ];
    for name in bad {
        s.changed(&[(2, name)]);
        s.changed(&[(2 + 2 * (n - 1), name)]);
    }
    if n > 1 {
        s.changed(&[(2, f.channel(n - 1).0)]);
        s.changed(&[(2 + 2 * (n - 1), f.channel(n - 2).0)]);
    }
    // 2
    for depth in [0, 5, 6, many] {
        s.changed(&[(1, depth)]);
    }
    // 3
    for flags in [0, 2, 3] {
        let off: Vec<_> = (0..n).map(|i| (3 + 2 * i, flags)).collect();
        s.changed(&off);
    }
    // 4
    for i in 0..d {
        for count in [0, f.layer(i).1 + 1, 6, 7, 25, many] {
            s.changed(&[(51 + 2 * i, count)]);
        }
    }
    for i in 0..rows {
        for count in [0, f.row(i).1 + 1, 24, 25, many] {
            s.changed(&[(59 + 2 * i, count)]);
        }
    }
    if rows > 1 {
        s.changed(&[(59, many), (61, 1)]);
        s.changed(&[(59, many), (61, 2)]);
    }
    // 5, each coordinate in turn; below and above the room, not finite, equal to its neighbour
    let places: Vec<usize> = (0..d)
        .map(|i| 50 + 2 * i)
        .chain((0..rows).map(|i| 58 + 2 * i))
        .chain((0..anchors).map(|i| 107 + 2 * i))
        .collect();
    let over = f64::from_bits(one + 1);
    for &i in &places {
        for x in [over, -over, f64::NAN, f64::INFINITY, -f64::INFINITY, 1.0, -1.0, -0.0, 0.0, 0.3] {
            s.changed(&[(i, x.to_bits())]);
        }
        let next = if i == 107 + 2 * (anchors - 1) { i } else { i + 2 };
        if next < 154 {
            let value = f.0[next];
            s.changed(&[(i, value)]);
        }
    }
    // 6
    for i in 0..anchors {
        for name in [packed("none"), 0, f.anchor((i + 1) % anchors).0, packed("LFE")] {
            s.changed(&[(106 + 2 * i, name)]);
        }
    }
    for i in 0..n {
        for flags in [0, 2, 3] {
            s.changed(&[(3 + 2 * i, flags)]);
        }
    }
    // entries past a count are no part of it
    for i in n..24 {
        s.changed(&[(2 + 2 * i, f.channel(0).0), (3 + 2 * i, 3)]);
    }
    if d < 4 {
        s.changed(&[(50 + 2 * d, f64::NAN.to_bits()), (51 + 2 * d, many)]);
    }
    if rows < 24 {
        s.changed(&[(58 + 2 * rows, f64::NAN.to_bits()), (59 + 2 * rows, many)]);
    }
    if anchors < 24 {
        s.changed(&[(106 + 2 * anchors, 0), (107 + 2 * anchors, f64::NAN.to_bits())]);
    }
    for (name, _) in f.channels() {
        s.place(name);
    }
    s.place(0);
    s.place(packed("none"));
}

/// One change for each question, tried two at a time, so that the order shows.
fn pairs(s: &mut Script) {
    let f = s.now.clone();
    let off: Vec<_> = (0..f.used() as usize).map(|i| (3 + 2 * i, 0)).collect();
    let wrong: [Vec<(usize, u64)>; 6] = [
        vec![(2, 0)],
        vec![(1, 5)],
        off,
        vec![(51, 7)],
        vec![(107, f64::NAN.to_bits())],
        vec![(106, packed("none"))],
    ];
    for i in 0..6 {
        for j in i..6 {
            let both: Vec<_> = wrong[j].iter().chain(&wrong[i]).copied().collect();
            s.changed(&both);
        }
    }
}

/// A room with twins: accepted; each anchor on an active channel, on one that is not, on none; each
/// channel switched off, which all its anchors show; and an anchor more than there may be.
fn twins(s: &mut Script, f: &Fields) {
    s.take(f);
    s.aside();
    s.ask();
    s.compare();
    let (n, rows, anchors) = (f.used() as usize, f.rows().len(), f.anchors().len());
    for i in 0..anchors {
        for name in [f.channel(i % n).0, f.channel(n - 1).0, packed("none")] {
            s.changed(&[(106 + 2 * i, name)]);
        }
    }
    for i in 0..n {
        for flags in [0, 3] {
            s.changed(&[(3 + 2 * i, flags)]);
        }
    }
    s.changed(&[(59 + 2 * (rows - 1), f.row(rows - 1).1 + 25 - anchors as u64)]);
}

fn main() {
    let folder = env::args().nth(1).expect("the folder to write to");
    let zero = Fields([0; 154]);
    let mut s = Script {
        inputs: String::new(),
        answers: String::new(),
        now: zero.clone(),
        aside: zero,
        name: 0,
        refused: BTreeMap::new(),
    };
    s.ask();
    s.compare();
    // mono at the left wall, 5.1, 7.1.4 and a full room
    let real = rooms::real();
    let mut mono = fields(&real[0]);
    mono.0[107] = 0.0f64.to_bits();
    let plain = [mono, fields(&real[2]), fields(&real[5]), full()];
    for room in &plain {
        s.take(room);
        s.aside();
        s.ask();
        s.compare();
        reasons(&mut s);
        pairs(&mut s);
        // the same made entry by entry, every channel enabled and none LFE
        s.build(room);
        s.ask();
        s.compare();
    }
    // more entries than there are places
    s.empty();
    s.add_row(0.5);
    s.add_anchor(packed("FL"), 0.5);
    s.ask();
    for i in 0..30u64 {
        s.add_channel(packed(&format!("c{i}")));
        s.ask();
    }
    s.add_layer(0.0);
    s.add_anchor(packed("c0"), 0.5);
    s.ask();
    for i in 0..8u64 {
        s.add_row(i as f64 / 8.0);
        for k in 0..5u64 {
            s.add_anchor(packed(&format!("c{}", 5 * i + k)), k as f64 / 5.0);
            s.ask();
        }
    }
    s.set(0, 24);
    s.ask();
    for i in 0..5u64 {
        s.add_layer(0.1 * (i + 1) as f64);
        for k in 0..6u64 {
            s.add_row(k as f64 / 6.0);
            s.add_anchor(packed("x"), 0.0);
        }
        s.ask();
    }
    // random fields
    let mut random = Random(7);
    for round in 0..600 {
        let mut f = plain[round / 150].clone();
        for _ in 0..1 + random.below(3) {
            let i = random.below(154) as usize;
            f.0[i] = match random.below(5) {
                0 => random.next(),
                1 => random.below(8),
                2 => (random.below(9) as f64 / 4.0 - 1.0).to_bits(),
                3 => f.0[random.below(154) as usize],
                _ => random.below(30),
            };
        }
        s.take(&f);
        s.ask();
        s.compare();
    }
    for room in rooms::old() {
        twins(&mut s, &fields(&room));
    }
    for round in 0..20 {
        let room = rooms::twinned(&mut random, [4, 8, 12, 20][round % 4]);
        twins(&mut s, &fields(&room));
    }
    for room in rooms::rows() {
        let f = fields(&room);
        s.take(&f);
        s.ask();
        s.build(&f);
        s.ask();
    }
    eprintln!("answers by question: {:?}", s.refused);
    fs::write(Path::new(&folder).join("stdin"), s.inputs).unwrap();
    fs::write(Path::new(&folder).join("stdout"), s.answers).unwrap();
}
