//! Writes random scene scripts: `scenes SEED COUNT FOLDER` makes COUNT files of about 60 calls each and
//! tells in how many of them a room has twins. `scenes twins` writes one script of such rooms alone,
//! under all twelve zone states, `scenes sliders` one of extents at and past their ends, `scenes halves`
//! one of extents whose components lie halfway between two whole numbers of 1 / 32768, or next to that, and
//! `scenes limits` one of rooms, point gains and centres at and next to what the questions and lambda compare with.
use oracle::{extent::open, halves, random::Random, rooms, SpatialLayout};
use std::{
    env, fs,
    io::{self, Write},
    path::Path,
};

const STORE: u64 = 285312;

/// A layout with its names as tokens, so that any layout can be written.
#[derive(Clone, Default)]
struct Draft {
    channels: Vec<Channel>,
    layers: Vec<(f64, Vec<Row>)>,
}
#[derive(Clone)]
struct Channel {
    name: String,
    enabled: bool,
    lfe: bool,
}
/// A row's y and its anchors.
type Row = (f64, Vec<(String, f64)>);

impl Draft {
    fn of(l: &SpatialLayout) -> Self {
        let row = |r: &oracle::SpatialLayoutRow| (r.y, r.anchors.iter().map(|a| (a.identity.clone(), a.x)).collect());
        Self {
            channels: l
                .channels
                .iter()
                .map(|c| Channel { name: c.identity.clone(), enabled: c.enabled, lfe: c.lfe })
                .collect(),
            layers: l.topology.layers.iter().map(|l| (l.z, l.rows.iter().map(row).collect())).collect(),
        }
    }
    fn active(&self) -> usize {
        self.channels.iter().filter(|c| c.enabled && !c.lfe).count()
    }
    fn rows(&mut self) -> Vec<&mut Row> {
        self.layers.iter_mut().flat_map(|l| &mut l.1).collect()
    }
    fn anchors(&mut self) -> Vec<&mut (String, f64)> {
        self.rows().into_iter().flat_map(|r| &mut r.1).collect()
    }
    /// Whether a channel has several anchors.
    fn has_twins(&self) -> bool {
        let names: Vec<&String> = self.layers.iter().flat_map(|l| &l.1).flat_map(|r| &r.1).map(|a| &a.0).collect();
        (0..names.len()).any(|i| names[..i].contains(&names[i]))
    }
    /// Every coordinate.
    fn numbers(&mut self) -> Vec<&mut f64> {
        let mut list = Vec::new();
        for (z, rows) in &mut self.layers {
            list.push(z);
            for (y, anchors) in rows {
                list.push(y);
                list.extend(anchors.iter_mut().map(|a| &mut a.1));
            }
        }
        list
    }
    /// Takes a channel's anchors away, and what they leave empty.
    fn unanchor(&mut self, name: &str) {
        for row in self.rows() {
            row.1.retain(|a| a.0 != name);
        }
        for layer in &mut self.layers {
            layer.1.retain(|r| !r.1.is_empty());
        }
        self.layers.retain(|l| !l.1.is_empty());
    }
    /// Names one channel otherwise, its anchors too.
    fn rename(&mut self, i: usize, name: &str) {
        let old = self.channels[i].name.clone();
        for a in self.anchors() {
            if a.0 == old {
                a.0 = name.to_owned();
            }
        }
        self.channels[i].name = name.to_owned();
    }
}

/// A name as a packed number, first byte lowest.
fn packed(name: &str) -> String {
    format!("\\{:016x}", name.bytes().rev().fold(0u64, |n, b| n << 8 | u64::from(b)))
}

fn one_of<T: Copy>(random: &mut Random, list: &[T]) -> T {
    list[random.below(list.len() as u64) as usize]
}

/// A double as a pattern or, where one of at most 15 digits gives it back, as a decimal.
fn token(random: &mut Random, x: f64) -> String {
    let decimal = format!("{x}");
    let (before, after) = decimal.split_once('.').unwrap_or((&decimal, ""));
    let digits = before.trim_start_matches('-').len() + after.len();
    if random.below(3) > 0 && digits <= 15 && x.is_finite() {
        let whole: u64 = format!("{}{after}", before.trim_start_matches('-')).parse().unwrap();
        let value = whole as f64 / 10u64.pow(after.len() as u32) as f64;
        let value = if decimal.starts_with('-') { -value } else { value };
        if value.to_bits() == x.to_bits() {
            return match random.below(8) {
                0 if digits < 15 && after.is_empty() => format!("{decimal}.0"),
                0 if digits < 15 => format!("{decimal}0"),
                1 if digits < 15 && !decimal.starts_with('-') => format!("0{decimal}"),
                _ => decimal,
            };
        }
    }
    match random.below(6) {
        0 => format!("x{:016X}", x.to_bits()),
        _ => format!("x{:016x}", x.to_bits()),
    }
}

/// A coordinate of a centre: inside, at a wall, outside, at a knot, -0.
fn coordinate(random: &mut Random) -> f64 {
    match random.below(16) {
        0 => 0.0,
        1 => 1.0,
        2 => -0.0,
        3 => -random.unit(),
        4 => 1.0 + random.unit(),
        5 => random.below(35) as f64 / 34.0,
        6 => random.below(4) as f64 / 3.0,
        7 => random.unit() * 0.01,
        8 => 1.0 - random.unit() * 0.01,
        9 => one_of(random, &[f64::MAX, -f64::MAX, f64::MIN_POSITIVE, f64::from_bits(1), 0.5, 999999999999999.0]),
        10 | 11 => random.below(1001) as f64 / 1000.0,
        12 => random.below(100_000_000_000_000) as f64 / 100_000_000_000_000.0,
        _ => random.unit(),
    }
}

/// An extent: small ones, whole ones, such with components that lie halfway or next to that, and such whose
/// radius is near 0.05, 0.125 or a knot's.
fn extent(random: &mut Random) -> [f64; 3] {
    let means = [1, 2, 3, 4, 6553, 6554, 4369, 4370, 4371, 9175, 9362, 10922, 16384, 24576, 24577, 32766, 32767];
    match random.below(8) {
        0 | 1 => {
            let v = f64::from(one_of(random, &means)) / 32768.0;
            [v, v, v]
        }
        2 | 3 => [random.unit(), random.unit(), random.unit()],
        4 => [random.unit() * 0.01, 0.0, -0.0],
        5 => {
            let v = halves::near(random);
            let others = [halves::near(random), halves::near(random)];
            one_of(random, &[[v, v, v], [v, v, -0.0], [v, 0.0, 0.0], [1.0, v, v], [v, others[0], others[1]]])
        }
        6 => std::array::from_fn(|_| one_of(random, &[0.0, 0.1, 0.25, 0.5, 0.75, 1.0])),
        _ => {
            let v = random.unit() * 0.3;
            [v, v, v]
        }
    }
}

/// A point gain: from 0 to 5/4, now and then an end, -0 or a subnormal.
fn point(random: &mut Random) -> f64 {
    match random.below(10) {
        0 => 0.0,
        1 => -0.0,
        2 => 1.25,
        3 => f64::from_bits(random.below(1 << 40)),
        4 => 1.0,
        5 => random.below(1251) as f64 / 1000.0,
        _ => random.unit() * 1.25,
    }
}

/// Numbers for the whole store.
const FILLS: [f64; 12] = [
    0.0,
    1.0,
    -1.0,
    f64::NAN,
    f64::INFINITY,
    f64::NEG_INFINITY,
    f64::MAX,
    1e-200,
    1e100,
    -0.0,
    0.25,
    f64::from_bits(0xfff8_dead_0000_0001),
];

const ADMITTED: [&str; 6] = ["TTTTT", "TTTFT", "TFTTT", "FFFFT", "TFFFF", "FFTFF"];

/// The sixteen classed names, and some that look like them.
const NAMES: [&str; 26] = [
    "FL", "FR", "FC", "FLc", "FRc", "Ls", "Rs", "SiL", "SiR", "Lb", "Rb", "BL", "BR", "BC", "Lw", "Rw", "fl", "FLC", "FCx",
    "LsLs", "off", "lfe", "#", "\\", "C", "lb",
];

fn zones(random: &mut Random) -> String {
    let top = one_of(random, &["T", "F"]);
    // the default often: it selects every room
    if random.below(2) == 0 {
        return "TTTTTT".to_owned();
    }
    format!("{}{top}", one_of(random, &ADMITTED))
}

/// A room: real, old, random with twins and without, of classed names on one floor, or of one class only.
fn room(random: &mut Random) -> Draft {
    let mut draft = match random.below(8) {
        0 | 1 => {
            let list = rooms::real();
            Draft::of(&list[random.below(list.len() as u64) as usize])
        }
        2 => Draft::of(&rooms::random(random, 6)),
        3 => Draft::of(&rooms::random(random, 24)),
        4 => {
            let list = rooms::old();
            Draft::of(&list[random.below(list.len() as u64) as usize])
        }
        5 => Draft::of(&rooms::twinned(random, 6)),
        6 => Draft::of(&rooms::twinned(random, 20)),
        _ => {
            let mut names = NAMES.to_vec();
            let count = 1 + random.below(8) as usize;
            let mut draft = Draft { channels: Vec::new(), layers: vec![(0.0, vec![(0.0, Vec::new())])] };
            for i in 0..count {
                let name = names.swap_remove(random.below(names.len() as u64) as usize).to_owned();
                draft.layers[0].1[0].1.push((name.clone(), i as f64 / 8.0));
                draft.channels.push(Channel { name, enabled: true, lfe: false });
            }
            draft
        }
    };
    if random.below(4) == 0 {
        let i = random.below(draft.channels.len() as u64) as usize;
        let name = one_of(random, &NAMES);
        if draft.channels.iter().all(|c| c.name != name) {
            draft.rename(i, name);
        }
    }
    draft
}

/// The same room otherwise: a speaker off, an LFE flag, the zeros' signs, a coordinate.
fn variant(random: &mut Random, draft: &Draft) -> Draft {
    let mut other = draft.clone();
    let i = random.below(other.channels.len() as u64) as usize;
    match random.below(5) {
        0 | 1 => {
            let name = other.channels[i].name.clone();
            other.channels[i].enabled = false;
            other.unanchor(&name);
        }
        2 => {
            let active = other.channels[i].enabled && !other.channels[i].lfe;
            if !active {
                other.channels[i].lfe ^= true;
                other.channels[i].enabled = false;
            }
        }
        3 => {
            for x in other.numbers() {
                if *x == 0.0 {
                    *x = -*x;
                }
            }
        }
        _ => {
            let mut list = other.numbers();
            let k = random.below(list.len() as u64) as usize;
            *list[k] += 1.0 / 1048576.0;
        }
    }
    if other.layers.is_empty() || other.active() == 0 {
        return draft.clone();
    }
    other
}

/// What a call brings.
#[derive(Clone)]
struct Call {
    draft: Draft,
    epoch: u64,
    extent: [f64; 3],
    zones: String,
    centre: [f64; 3],
    points: Vec<f64>,
    slots: u64,
    store: u64,
}

/// What no component of an extent may be: NaN of two patterns, the infinities, and numbers below 0 and
/// above 1, the nearest ones among them.
const NO_COMPONENTS: [f64; 8] = [
    f64::NAN,
    f64::from_bits(0x7ff0_0000_0000_0001),
    f64::INFINITY,
    f64::NEG_INFINITY,
    -f64::from_bits(1),
    -1.0,
    1.0 + f64::EPSILON,
    2.0,
];

/// Makes a call such that question q is answered no, if none before it is; 7 stands for 18 and 19 too,
/// and 14 is not among them.
fn spoil(random: &mut Random, call: &mut Call, q: u64) {
    let draft = &mut call.draft;
    let bad = [f64::NAN, f64::INFINITY, -f64::INFINITY, f64::from_bits(0x7ff0_0000_0000_0001)];
    match q {
        1 if draft.channels.is_empty() => {}
        1 => match random.below(5) {
            0 => draft.channels.clear(),
            1 => {
                let count = one_of(random, &[25, 26, 300]);
                for i in draft.channels.len()..count {
                    draft.channels.push(Channel { name: format!("c{i}"), enabled: true, lfe: false });
                }
            }
            2 => {
                let first = draft.channels[0].clone();
                draft.channels.push(first);
            }
            _ => {
                let list = [0, 0x20, 0x204c46, 0x7f4c46, 0x80, 0x4c_0046, 0x0100_0000_0000_4c46, u64::MAX, 0x0a, 0x464c << 8];
                let name = format!("\\{:016x}", one_of(random, &list));
                let i = random.below(draft.channels.len() as u64) as usize;
                draft.rename(i, &name);
            }
        },
        2 => {
            if random.below(2) == 0 {
                draft.layers.clear();
            } else {
                let count = 5 + random.below(3) as usize;
                while draft.layers.len() < count {
                    let z = draft.layers.len() as f64 / 8.0;
                    let rows = if random.below(2) == 0 { Vec::new() } else { vec![(0.0, vec![("FL".to_owned(), 0.0)])] };
                    draft.layers.push((z, rows));
                }
            }
        }
        3 => {
            for c in &mut draft.channels {
                if random.below(2) == 0 {
                    c.enabled = false;
                } else {
                    c.lfe = true;
                }
            }
        }
        4 => {
            if draft.layers.is_empty() {
                return;
            }
            let i = random.below(draft.layers.len() as u64) as usize;
            let rows = &mut draft.layers[i].1;
            match random.below(4) {
                0 => rows.clear(),
                1 => {
                    for k in 0..7 {
                        rows.push((0.5 + k as f64 / 16.0, vec![("FL".to_owned(), 0.0)]));
                    }
                }
                2 => {
                    if let Some(row) = rows.last_mut() {
                        row.1.clear();
                    }
                }
                _ => {
                    if let Some(row) = rows.last_mut() {
                        for k in 0..25 {
                            row.1.push((format!("c{k}"), k as f64 / 32.0));
                        }
                    }
                }
            }
        }
        5 => {
            let mut list = draft.numbers();
            if list.is_empty() {
                return;
            }
            let k = random.below(list.len() as u64) as usize;
            let over = f64::from_bits(1.0f64.to_bits() + 1);
            *list[k] = match random.below(4) {
                0 => one_of(random, &bad),
                1 => over,
                2 => -over,
                _ => *list[(k + 1) % list.len()],
            };
        }
        6 => {
            let inactive: Vec<String> =
                draft.channels.iter().filter(|c| !c.enabled || c.lfe).map(|c| c.name.clone()).collect();
            let mut list = draft.anchors();
            if list.is_empty() {
                return;
            }
            let k = random.below(list.len() as u64) as usize;
            match random.below(3) {
                0 => list[k].0 = "none".to_owned(),
                1 => list[k].0 = packed("\u{1}"),
                _ => {
                    let i = random.below(1 + inactive.len() as u64) as usize;
                    list[k].0 = inactive.get(i).cloned().unwrap_or("x".to_owned());
                }
            }
        }
        7 => {
            // one component, or up to three
            for _ in 0..1 + random.below(3) {
                call.extent[random.below(3) as usize] = one_of(random, &NO_COMPONENTS);
            }
        }
        8 => {
            call.zones = (0..6).map(|_| one_of(random, &['T', 'F'])).collect();
        }
        9 => {
            // mostly none of the room's speakers is in the class
            call.zones = one_of(random, &["TFFFFF", "FFTFFF", "FFFFTF", "TTTTTF"]).to_owned();
            let i = random.below(1 + draft.channels.len() as u64) as usize;
            if i < draft.channels.len() && random.below(2) == 0 {
                let keep = draft.channels[i].name.clone();
                let names: Vec<String> = draft.channels.iter().map(|c| c.name.clone()).filter(|n| *n != keep).collect();
                for name in names {
                    draft.unanchor(&name);
                }
            }
        }
        10 => {
            call.zones = format!("{}{}", one_of(random, &ADMITTED[1..]), one_of(random, &["T", "F"]));
            if !draft.channels.is_empty() {
                let i = random.below(draft.channels.len() as u64) as usize;
                draft.rename(i, "other");
            }
            if random.below(2) == 0 && !draft.layers.is_empty() {
                draft.layers[0].0 = one_of(random, &[0.0, -0.0]);
            }
        }
        11 => call.centre[random.below(3) as usize] = one_of(random, &bad),
        12 => match random.below(5) {
            0 => {
                call.points.pop();
            }
            1 => {
                if call.points.len() < 32 {
                    call.points.push(0.5);
                }
            }
            2 => call.points.clear(),
            3 => call.points = vec![0.5; random.below(33) as usize],
            _ => {
                let wild = [f64::NAN, f64::INFINITY, -f64::from_bits(1), f64::from_bits(1.25f64.to_bits() + 1), 7.0, -1.0];
                if !call.points.is_empty() {
                    let i = random.below(call.points.len() as u64) as usize;
                    call.points[i] = one_of(random, &wild);
                }
            }
        },
        _ => {
            if random.below(2) == 0 {
                call.slots = random.below(1 + draft.active().min(32) as u64);
            } else {
                call.store = one_of(random, &[0, 1, 35664, STORE - 1]);
            }
        }
    }
}

/// A line that can't be read, whatever stands before it.
fn bad_line(random: &mut Random) -> Vec<u8> {
    let long = |start: &str, length: usize| format!("{start}{}", " ".repeat(length - start.len())).into_bytes();
    let list: [&[u8]; 62] = [
        b"gain", b"Gains", b"gains 1", b"show x", b"layout 1", b"channel", b"channel FL on", b"channel FL lfe off", b"channel FL off off",
        b"channel FL off lfe x", b"channel ninebytes", b"channel \\123456789abcdeg0", b"channel \\123456789abcdef01", b"channel F\tL",
        b"channel F\x7fL", b"channel \x80", b"channel FL\r", b"gains\r", b"\tgains", b"\t", b"\r", b"layer", b"layer 1 2", b"layer 0x1",
        b"row x", b"row x123", b"row X3ff0000000000000", b"row x3ff000000000000g", b"row x03ff0000000000000", b"anchor FL", b"anchor 0.5",
        b"anchor FL 0.5 1", b"epoch -1", b"epoch 18446744073709551616", b"epoch +1", b"epoch 1.0", b"epoch", b"epoch 99999999999999999999999",
        b"extent 0 0", b"extent 0 0 0 0", b"extent 0 0 .5", b"extent 0 0 5.", b"extent 0 0 1e3", b"extent 0 0 +1", b"extent 0 0 --1",
        b"extent 1234567890123456 0 0", b"extent 0.123456789012345 0 0", b"centre 0 0 0.000000000000000", b"centre - 0 0",
        b"centre 0,5 0 0", b"zones TTTTT", b"zones TTTTTTT", b"zones TTTTTt", b"zones T T T T T T", b"points 0.5 nan", b"slots 33", b"slots -1",
        b"store 285313", b"fill", b"fill 0 0", b"state 1", b"fresh 1",
    ];
    match random.below(70) {
        0 => long("# a long comment", 4001),
        1 => long("gains", 4001 + random.below(3000) as usize),
        2 => long("", 4001),
        3 => format!("points{}", " 1".repeat(33)).into_bytes(),
        4 => b"extent 0 0 0.5 # no comment".to_vec(),
        5 => b"gains \x00".to_vec(),
        _ => one_of(random, &list).to_vec(),
    }
}

/// A line that is passed over.
fn idle_line(random: &mut Random) -> Vec<u8> {
    match random.below(7) {
        0 => Vec::new(),
        1 => b"     ".to_vec(),
        2 => b"# gains".to_vec(),
        3 => b"  #\tany \xff byte \x00\r".to_vec(),
        4 => format!("#{}", "x".repeat(3999)).into_bytes(),
        5 => " ".repeat(4000).into_bytes(),
        _ => b"#".to_vec(),
    }
}

/// Writes lines; `now` is what the script has set so far, as far as it was written here.
struct Script {
    text: Vec<u8>,
    random: Random,
    now: Option<Call>,
    /// Whether a call that is meant to be accepted has brought a room with twins.
    twins: bool,
}

impl Script {
    fn line(&mut self, line: &str) {
        // now and then other spaces; an odd line before it
        let mut line = line.to_owned();
        match self.random.below(40) {
            0 => line = format!("  {line}"),
            1 => line = format!("{line}   "),
            2 => line = line.replace(' ', "  "),
            3 => {
                let odd = bad_line(&mut self.random);
                self.text.extend(odd);
                self.text.push(b'\n');
            }
            4 => {
                let odd = idle_line(&mut self.random);
                self.text.extend(odd);
                self.text.push(b'\n');
            }
            _ => {}
        }
        self.text.extend(line.as_bytes());
        self.text.push(b'\n');
    }
    fn whole(&mut self, n: u64) -> String {
        match self.random.below(10) {
            0 => format!("000{n}"),
            1 => format!("{n:030}"),
            _ => n.to_string(),
        }
    }
    fn number(&mut self, word: &str, n: u64) {
        let n = self.whole(n);
        self.line(&format!("{word} {n}"));
    }
    fn doubles(&mut self, word: &str, list: &[f64]) {
        let mut line = word.to_owned();
        for x in list {
            line += " ";
            line += &token(&mut self.random, *x);
        }
        self.line(&line);
    }
    fn name(&mut self, name: &str) -> String {
        if !name.starts_with('\\') && self.random.below(12) == 0 {
            packed(name)
        } else {
            name.to_owned()
        }
    }
    fn layout(&mut self, draft: &Draft) {
        self.line("layout");
        for c in &draft.channels {
            let name = self.name(&c.name);
            let (off, lfe) = (if c.enabled { "" } else { " off" }, if c.lfe { " lfe" } else { "" });
            self.line(&format!("channel {name}{off}{lfe}"));
        }
        // bad lines: no layer yet, no row in the last layer yet
        if self.random.below(10) == 0 {
            let line = one_of(&mut self.random, &["row 0.5", "anchor FL 0.5"]);
            self.line(line);
        }
        for (z, rows) in &draft.layers {
            self.doubles("layer", &[*z]);
            if self.random.below(20) == 0 {
                self.line("anchor FL 0.5");
            }
            for (y, anchors) in rows {
                self.doubles("row", &[*y]);
                for (name, x) in anchors {
                    let name = self.name(name);
                    self.doubles(&format!("anchor {name}"), &[*x]);
                }
            }
        }
    }
    /// Brings all that a call takes and calls.
    fn call(&mut self, call: &Call) {
        let same = |a: &[f64], b: &[f64]| a.iter().map(|x| x.to_bits()).eq(b.iter().map(|x| x.to_bits()));
        let old = self.now.take();
        let drafts = |c: &Call| {
            let mut d = c.draft.clone();
            let numbers: Vec<u64> = d.numbers().into_iter().map(|x| x.to_bits()).collect();
            let flags: Vec<(String, bool, bool)> = d.channels.iter().map(|c| (c.name.clone(), c.enabled, c.lfe)).collect();
            let shape: Vec<Vec<usize>> = d.layers.iter().map(|l| l.1.iter().map(|r| r.1.len()).collect()).collect();
            let anchors: Vec<String> = d.anchors().into_iter().map(|a| a.0.clone()).collect();
            (numbers, flags, shape, anchors)
        };
        if old.as_ref().map(drafts) != Some(drafts(call)) {
            self.layout(&call.draft);
        }
        if old.as_ref().map(|c| c.epoch) != Some(call.epoch) {
            self.number("epoch", call.epoch);
        }
        if !old.as_ref().is_some_and(|c| same(&c.extent, &call.extent)) {
            self.doubles("extent", &call.extent);
        }
        if old.as_ref().map(|c| &c.zones) != Some(&call.zones) {
            self.line(&format!("zones {}", call.zones));
        }
        if !old.as_ref().is_some_and(|c| same(&c.centre, &call.centre)) {
            self.doubles("centre", &call.centre);
        }
        if !old.as_ref().is_some_and(|c| same(&c.points, &call.points)) {
            self.doubles("points", &call.points);
        }
        if old.as_ref().map(|c| c.slots) != Some(call.slots) {
            self.number("slots", call.slots);
        }
        if old.as_ref().map(|c| c.store) != Some(call.store) {
            self.number("store", call.store);
        }
        self.now = Some(call.clone());
        self.line("gains");
    }
    fn state(&mut self, count: u64, oldest: u64) {
        let (count, oldest) = (self.whole(count), self.whole(oldest));
        self.line(&format!("state {count} {oldest}"));
    }
}

/// A script, and whether it has a room with twins.
fn script(seed: u64) -> (Vec<u8>, bool) {
    let mut s = Script { text: Vec::new(), random: Random(seed), now: None, twins: false };
    // what is there at the start
    for word in ["gains", "show", "row 0.5", "anchor FL 0.5", "layer 0", "anchor FL 0.5"] {
        if s.random.below(8) == 0 {
            s.line(word);
        }
    }
    // any doubles in the store
    if s.random.below(3) > 0 {
        let value = one_of(&mut s.random, &FILLS);
        s.doubles("fill", &[value]);
    }
    // few keys or many; whether the state and the numbers are changed by hand
    let pool = 1 + s.random.below(4) as usize;
    let most = one_of(&mut s.random, &[2, 5, 12]);
    let epochs: Vec<u64> = (0..1 + s.random.below(most))
        .map(|i| match s.random.below(4) {
            0 => u64::MAX - s.random.below(2),
            1 => s.random.next(),
            _ => i,
        })
        .collect();
    let by_hand = s.random.below(2) == 0;
    let mut drafts: Vec<Draft> = (0..pool).map(|_| room(&mut s.random)).collect();
    for i in 0..pool {
        let other = variant(&mut s.random, &drafts[i]);
        drafts.push(other);
    }
    let mut call = Call {
        draft: drafts[0].clone(),
        epoch: epochs[0],
        extent: [0.3; 3],
        zones: "TTTTTT".to_owned(),
        centre: [0.5, 0.5, 0.0],
        points: Vec::new(),
        slots: 24,
        store: STORE,
    };
    for _ in 0..60 {
        // the next call that is meant to be accepted
        if s.random.below(3) == 0 {
            call.draft = drafts[s.random.below(drafts.len() as u64) as usize].clone();
        }
        if s.random.below(3) == 0 {
            call.epoch = epochs[s.random.below(epochs.len() as u64) as usize];
        }
        if s.random.below(2) == 0 {
            call.extent = extent(&mut s.random);
        }
        if s.random.below(4) == 0 {
            call.zones = zones(&mut s.random);
        }
        if s.random.below(2) == 0 {
            call.centre = std::array::from_fn(|_| coordinate(&mut s.random));
        }
        let n = call.draft.active();
        if call.points.len() != n || s.random.below(3) == 0 {
            call.points = (0..n).map(|_| point(&mut s.random)).collect();
        }
        if s.random.below(6) == 0 {
            call.slots = n as u64 + s.random.below(33 - n as u64);
        }
        call.slots = call.slots.max(n as u64);
        // by hand
        match s.random.below(if by_hand { 12 } else { 60 }) {
            0 => s.line("fresh"),
            1 => {
                let value = one_of(&mut s.random, &FILLS);
                // kept keys meet these numbers, far from the walls and at one
                s.call(&call);
                s.doubles("fill", &[value]);
                let mut other = call.clone();
                for e in [0.25, 0.02, 1.0] {
                    other.extent = [e; 3];
                    other.centre = one_of(&mut s.random, &[[0.5, 0.5, 0.25], [0.0, 0.3, 0.5], [0.3, 0.6, 1.0], [0.1, 0.9, 0.4]]);
                    s.call(&other);
                }
            }
            2 if by_hand => {
                let (count, oldest) = (s.random.below(9), s.random.below(8));
                s.state(count, oldest);
            }
            3 if by_hand => {
                let (count, oldest) =
                    one_of(&mut s.random, &[(9, 0), (0, 8), (8, 8), (u64::MAX, 0), (0, u64::MAX), (1 << 32, 0), (3, 1 << 32), (256, 7)]);
                s.state(count, oldest);
                s.line("show");
                // refused by 14, or by an earlier question
                let mut other = call.clone();
                if s.random.below(2) == 0 {
                    let q = 1 + s.random.below(13);
                    spoil(&mut s.random, &mut other, q);
                }
                s.call(&other);
                s.line("show");
                let (count, oldest) = (s.random.below(9), s.random.below(8));
                s.state(count, oldest);
            }
            _ => {}
        }
        // a call with one or two wrong things before it
        if s.random.below(3) == 0 {
            let mut other = call.clone();
            for _ in 0..1 + s.random.below(2) {
                let q = 1 + s.random.below(13);
                spoil(&mut s.random, &mut other, q);
            }
            s.call(&other);
        }
        s.call(&call);
        s.twins |= call.draft.has_twins();
        if s.random.below(6) == 0 {
            s.line("show");
        }
    }
    s.line("show");
    // a last line without a line feed counts
    if s.random.below(2) == 0 {
        s.text.extend(b"gains");
    }
    (s.text, s.twins)
}

/// The old rooms and four random ones with twins, each under all twelve zone states, with an extent of
/// the blend and two wider ones by turns.
fn twins() -> Vec<u8> {
    let mut s = Script { text: Vec::new(), random: Random(11), now: None, twins: true };
    let mut list = rooms::old();
    for most in [6, 12, 18, 24] {
        list.push(rooms::twinned(&mut s.random, most));
    }
    s.line("fresh");
    for (epoch, l) in list.iter().enumerate() {
        let draft = Draft::of(l);
        for (i, zones) in ADMITTED.iter().enumerate() {
            for top in ["T", "F"] {
                let points = (0..draft.active()).map(|_| point(&mut s.random)).collect();
                let call = Call {
                    draft: draft.clone(),
                    epoch: epoch as u64,
                    extent: [[0.05, 0.3, 0.8][i % 3]; 3],
                    zones: format!("{zones}{top}"),
                    centre: std::array::from_fn(|_| coordinate(&mut s.random)),
                    points,
                    slots: 24,
                    store: STORE,
                };
                s.call(&call);
            }
        }
        s.line("show");
    }
    s.text
}

/// Each component of an extent past its ends in each way, alone and with one or both of the others, with
/// good flags and with flags that question 8 refuses, and a quarter of these in a room that question 6
/// refuses; and each component at its ends.
fn sliders() -> Vec<u8> {
    let mut s = Script { text: Vec::new(), random: Random(3), now: None, twins: false };
    let call = Call {
        draft: Draft::of(&rooms::real()[2]),
        epoch: 0,
        extent: [0.3; 3],
        zones: "TTTTTT".to_owned(),
        centre: [0.5, 0.25, 0.0],
        points: vec![0.5; 5],
        slots: 24,
        store: STORE,
    };
    let mut unnamed = call.draft.clone();
    unnamed.anchors()[1].0 = "none".to_owned();
    s.line("fresh");
    s.call(&call);
    // which components are past their ends: one bit for each
    for which in 1..8 {
        for k in 0..NO_COMPONENTS.len() {
            let mut other = call.clone();
            for i in (0..3).filter(|i| which >> i & 1 == 1) {
                other.extent[i] = NO_COMPONENTS[(k + 3 * i) % NO_COMPONENTS.len()];
            }
            s.call(&other);
            other.zones = "FFFFFT".to_owned();
            s.call(&other);
            if k % 4 == 0 {
                other.draft = unnamed.clone();
                s.call(&other);
                other.zones = call.zones.clone();
                s.call(&other);
            }
        }
        s.line("show");
        s.call(&call);
    }
    for end in [0.0, -0.0, f64::from_bits(1), 1.0 - f64::EPSILON / 2.0, 1.0] {
        for i in 0..3 {
            let mut other = call.clone();
            other.extent[i] = end;
            s.call(&other);
        }
        s.call(&Call { extent: [end; 3], ..call.clone() });
    }
    s.line("show");
    s.text
}

/// Halves and the doubles next to them: the least ones, where a mean of 0 or of less than 3 keeps the point
/// gains; those about the radii 0.05 and 0.125 and about the knots; and the greatest. Each as all three components,
/// and as one, two or three of them with others that are 0, -0 or a whole number of 1 / 32768.
fn halfway() -> Vec<u8> {
    let mut s = Script { text: Vec::new(), random: Random(9), now: None, twins: false };
    let call = Call {
        draft: Draft::of(&rooms::real()[2]),
        epoch: 9,
        extent: [0.0; 3],
        zones: "TTTTTT".to_owned(),
        centre: [0.3, 0.6, 0.0],
        points: vec![0.6, 0.0, 0.8, 0.0, -0.0],
        slots: 24,
        store: STORE,
    };
    s.line("fresh");
    // the first mean that is not 0, for which a field is built, is that of the double above 1 / 65536
    for k in [1, 3, 5, 7, 9, 11, 8737, 8739, 8741, 13105, 13107, 13109, 18725, 32767, 32769, 49151, 49153, 65531, 65533, 65535] {
        for v in halves::around(k) {
            s.call(&Call { extent: [v; 3], ..call.clone() });
            s.line("show");
        }
        let [below, half, above] = halves::around(k);
        let whole = (k / 2) as f64 / 32768.0;
        for extent in [[half, 0.0, -0.0], [0.0, half, half], [half, whole, above], [below, half, whole], [whole, whole, half]] {
            s.call(&Call { extent, ..call.clone() });
        }
    }
    // another room, with a layer above, and any halves
    let draft = Draft::of(&rooms::real()[5]);
    let n = draft.active();
    for _ in 0..40 {
        let points = (0..n).map(|_| point(&mut s.random)).collect();
        let extent = std::array::from_fn(|_| halves::near(&mut s.random));
        let centre = std::array::from_fn(|_| coordinate(&mut s.random));
        s.call(&Call { draft: draft.clone(), extent, centre, points, ..call.clone() });
    }
    s.line("show");
    s.text
}

/// Channels that are not active and still count for the selection, each under all twelve zone states; six rows in a
/// layer and more; a point gain of 5/4, of -0 and of the doubles past these, at each place; and centres whose
/// distance from a wall is four times the radius or 4 * 0.05, or next to that.
fn limits() -> Vec<u8> {
    let mut s = Script { text: Vec::new(), random: Random(14), now: None, twins: true };
    let call = Call {
        draft: Draft::of(&rooms::real()[2]),
        epoch: 14,
        extent: [0.3; 3],
        zones: "TTTTTT".to_owned(),
        centre: [0.3, 0.6, 0.0],
        points: vec![0.6, 0.0, 0.8, 0.25, -0.0],
        slots: 24,
        store: STORE,
    };
    s.line("fresh");
    for l in rooms::inactive() {
        let draft = Draft::of(&l);
        let points = vec![0.5; draft.active()];
        for zones in ADMITTED.iter().flat_map(|z| ["T", "F"].map(|top| format!("{z}{top}"))) {
            s.call(&Call { draft: draft.clone(), points: points.clone(), zones, ..call.clone() });
        }
    }
    for l in rooms::rows() {
        s.call(&Call { draft: Draft::of(&l), points: vec![0.5; 3], ..call.clone() });
    }
    s.line("show");
    // the point gains alone, both, and the field alone
    for extent in [0.0, 0.1, 0.3] {
        for i in 0..5 {
            for gain in halves::beside(1.25).into_iter().chain([-0.0, -f64::from_bits(1)]) {
                let mut other = Call { extent: [extent; 3], ..call.clone() };
                other.points[i] = gain;
                s.call(&other);
            }
        }
    }
    s.line("show");
    // 5.1, 7.1.4 and 22.2
    for l in [2, 5, 7].map(|i| rooms::real().swap_remove(i)) {
        let draft = Draft::of(&l);
        let n = draft.active();
        let call = Call { draft, points: (0..n).map(|k| k as f64 / 32.0).collect(), ..call.clone() };
        let reading = |mean: u32| open::read([f64::from(mean) / 32768.0; 3]).unwrap().1;
        // above 0.05 the radius alone decides; at the far walls the distance has fewer digits
        let whole = |r: f64| 1.0 - (1.0 - 4.0 * r) == 4.0 * r;
        let wide = (4400..9362).step_by(7).filter(|&mean| whole(reading(mean))).step_by(120);
        let ties = wide.map(|mean| (mean, 4.0 * reading(mean)));
        // up to 0.05 that number
        for (mean, tie) in ties.chain([300, 2000, 4369].map(|mean| (mean, 0.2))) {
            let extent = [f64::from(mean) / 32768.0; 3];
            for d in halves::beside(tie) {
                for centre in [[d, 0.5, 0.25], [0.5, d, 0.25]] {
                    s.call(&Call { extent, centre, ..call.clone() });
                }
            }
            for far in halves::beside(1.0 - tie) {
                for centre in [[far, 0.5, 0.25], [0.5, far, 0.25], [0.5, 0.5, far]] {
                    s.call(&Call { extent, centre, ..call.clone() });
                }
            }
        }
    }
    s.line("show");
    s.text
}

fn main() {
    let arguments: Vec<String> = env::args().collect();
    let words: Vec<&str> = arguments.iter().map(String::as_str).collect();
    let one = match words[..] {
        [_, "twins"] => Some(twins()),
        [_, "sliders"] => Some(sliders()),
        [_, "halves"] => Some(halfway()),
        [_, "limits"] => Some(limits()),
        _ => None,
    };
    if let Some(text) = one {
        io::stdout().write_all(&text).unwrap();
        return;
    }
    let [_, seed, count, folder] = words[..] else {
        panic!("scenes SEED COUNT FOLDER | scenes twins | scenes sliders | scenes halves | scenes limits");
    };
    let (seed, count): (u64, u64) = (seed.parse().unwrap(), count.parse().unwrap());
    let mut with_twins = 0;
    for i in 0..count {
        // seeds that lie apart, so that no two scripts share their numbers
        let (text, twins) = script(Random(seed << 32 | i).next());
        with_twins += u64::from(twins);
        fs::write(Path::new(folder).join(format!("{i:05}.scene")), text).unwrap();
    }
    println!("{with_twins} of {count} scripts have a room with twins");
}
