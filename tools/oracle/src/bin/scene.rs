//! Plays a scene script: `scene <SCRIPT >OUTPUT`, as SCENE.md says. The gains are those of the
//! original's projection over the numbers in the store. The questions, the words, the kept list and
//! what the store holds are written from document 01. Where a place is as a call filled it, the gains
//! must also be those of the original's selector; from a fresh selector on, its list must be the same.
use oracle::{
    extent::open::{self, Field},
    region::{self, RegionHorizontalState as Horizontal, RegionSemanticState, RegionTopBottomState, RegionTopologySelector},
    SpatialDescriptor, SpatialLayout, SpatialLayoutAnchor, SpatialLayoutChannel, SpatialLayoutLayer, SpatialLayoutRow,
};
use std::io::{self, Read, Write};

const PLACE: usize = 35664;
const STORE: usize = 285312;
const LINE: usize = 4000;

/// A number's pattern; every NaN has the same.
fn bits(x: f64) -> u64 {
    if x.is_nan() {
        0x7ff8_0000_0000_0000
    } else {
        x.to_bits()
    }
}

/// A gain to six places, or a dash.
fn decimal(x: f64) -> String {
    if (0.0..=2.0).contains(&x) {
        let millionths = (x * 1000000.0 + 0.5).floor() as u64;
        format!("{}.{:06}", millionths / 1000000, millionths % 1000000)
    } else {
        "-".to_owned()
    }
}

// Tokens.

fn hexadecimal(token: &[u8]) -> Option<u64> {
    if token.len() != 16 {
        return None;
    }
    token.iter().try_fold(0, |n, &b| Some(n << 4 | u64::from((b as char).to_digit(16)?)))
}

fn digits(token: &[u8]) -> bool {
    !token.is_empty() && token.iter().all(u8::is_ascii_digit)
}

fn whole(token: &[u8]) -> Option<u64> {
    if !digits(token) {
        return None;
    }
    token.iter().try_fold(0u64, |n, b| n.checked_mul(10)?.checked_add(u64::from(b - b'0')))
}

fn double(token: &[u8]) -> Option<f64> {
    if let Some(pattern) = token.strip_prefix(b"x") {
        return hexadecimal(pattern).map(f64::from_bits);
    }
    let (minus, rest) = match token.strip_prefix(b"-") {
        Some(rest) => (true, rest),
        None => (false, token),
    };
    let (before, after) = match rest.iter().position(|&b| b == b'.') {
        Some(point) => (&rest[..point], &rest[point + 1..]),
        None => (rest, &b""[..]),
    };
    if !digits(before) || before.len() < rest.len() && !digits(after) || before.len() + after.len() > 15 {
        return None;
    }
    let all = before.iter().chain(after).fold(0u64, |n, b| n * 10 + u64::from(b - b'0'));
    let value = all as f64 / 10u64.pow(after.len() as u32) as f64;
    Some(if minus { -value } else { value })
}

fn doubles<const N: usize>(tokens: &[&[u8]]) -> Option<[f64; N]> {
    let list: Option<Vec<f64>> = tokens.iter().map(|t| double(t)).collect();
    list?.try_into().ok()
}

fn name(token: &[u8]) -> Option<u64> {
    if token.len() == 17 && token[0] == b'\\' {
        return hexadecimal(&token[1..]);
    }
    if token.len() > 8 || !token.iter().all(|b| (33..=126).contains(b)) {
        return None;
    }
    Some(token.iter().rev().fold(0, |n, &b| n << 8 | u64::from(b)))
}

fn zones(token: &[u8]) -> Option<[bool; 6]> {
    if !token.iter().all(|b| b"TF".contains(b)) {
        return None;
    }
    token.iter().map(|&b| b == b'T').collect::<Vec<_>>().try_into().ok()
}

/// A layout as the script gives it. Lists may be longer than a layout has places: the questions
/// refuse such a layout by its counts alone.
#[derive(Default)]
struct Room {
    channels: Vec<Channel>,
    layers: Vec<Layer>,
}
struct Channel {
    name: u64,
    enabled: bool,
    lfe: bool,
}
struct Layer {
    z: f64,
    rows: Vec<Row>,
}
struct Row {
    y: f64,
    anchors: Vec<Anchor>,
}
struct Anchor {
    name: u64,
    x: f64,
}

fn is_name(n: u64) -> bool {
    let bytes = n.to_le_bytes();
    let length = bytes.iter().take_while(|b| (33..=126).contains(*b)).count();
    length > 0 && bytes[length..].iter().all(|&b| b == 0)
}

fn text(n: u64) -> String {
    n.to_le_bytes().iter().take_while(|&&b| b != 0).map(|&b| b as char).collect()
}

fn distinct(list: &[u64]) -> bool {
    (0..list.len()).all(|i| !list[..i].contains(&list[i]))
}

fn ordered(list: impl Iterator<Item = f64>) -> bool {
    let list: Vec<f64> = list.collect();
    list.iter().all(|x| x.is_finite() && (-1.0..=1.0).contains(x)) && list.windows(2).all(|w| w[0] < w[1])
}

impl Room {
    fn active(&self) -> Vec<u64> {
        self.channels.iter().filter(|c| c.enabled && !c.lfe).map(|c| c.name).collect()
    }

    /// Questions 1 to 6: the first that is answered no.
    fn first_no(&self) -> Option<u32> {
        let names: Vec<u64> = self.channels.iter().map(|c| c.name).collect();
        if !(1..=24).contains(&names.len()) || !names.iter().all(|&n| is_name(n)) || !distinct(&names) {
            return Some(1);
        }
        if !(1..=4).contains(&self.layers.len()) {
            return Some(2);
        }
        let active = self.active();
        if active.is_empty() {
            return Some(3);
        }
        let rows: Vec<&Row> = self.layers.iter().flat_map(|l| &l.rows).collect();
        let anchors: Vec<u64> = rows.iter().flat_map(|r| &r.anchors).map(|a| a.name).collect();
        if !self.layers.iter().all(|l| (1..=6).contains(&l.rows.len()))
            || !rows.iter().all(|r| !r.anchors.is_empty())
            || anchors.len() > 24
        {
            return Some(4);
        }
        if !ordered(self.layers.iter().map(|l| l.z))
            || !self.layers.iter().all(|l| ordered(l.rows.iter().map(|r| r.y)))
            || !rows.iter().all(|r| ordered(r.anchors.iter().map(|a| a.x)))
        {
            return Some(5);
        }
        if !anchors.iter().all(|n| active.contains(n)) {
            return Some(6);
        }
        None
    }

    /// The same as the original has it; questions 1 to 6 are answered yes.
    fn layout(&self) -> SpatialLayout {
        let anchor = |a: &Anchor| SpatialLayoutAnchor::at(text(a.name), a.x);
        let row = |r: &Row| SpatialLayoutRow { y: r.y, anchors: r.anchors.iter().map(anchor).collect() };
        let layer = |l: &Layer| SpatialLayoutLayer { z: l.z, rows: l.rows.iter().map(row).collect() };
        let channel = |c: &Channel| SpatialLayoutChannel { identity: text(c.name), enabled: c.enabled, lfe: c.lfe };
        SpatialLayout::of(self.channels.iter().map(channel).collect(), self.layers.iter().map(layer).collect())
    }
}

// Zones and selection.

/// The horizontal state of the first five flags.
fn horizontal(zones: [bool; 6]) -> Option<Horizontal> {
    let letters: String = zones[..5].iter().map(|&z| if z { 'T' } else { 'F' }).collect();
    match letters.as_str() {
        "TTTTT" => Some(Horizontal::NoConstraints),
        "TTTFT" => Some(Horizontal::BackExcluded),
        "TFTTT" => Some(Horizontal::SideExcluded),
        "FFFFT" => Some(Horizontal::CentreAndBack),
        "TFFFF" => Some(Horizontal::ScreenOnly),
        "FFTFF" => Some(Horizontal::SurroundOnly),
        _ => None,
    }
}

/// Whether a speaker outside the upper layers stays; none without a class.
fn stays(state: Horizontal, name: &str, five_x: bool) -> Option<bool> {
    let in_list = |list: &str| list.split(' ').any(|n| n == name);
    let screen = in_list("FL FR FLc FRc FC");
    let centre = in_list("FC");
    let surround = in_list("Ls Rs SiL SiR");
    let back = in_list("Lb Rb BL BR BC") || five_x && in_list("Ls Rs");
    let side = !five_x && in_list("Ls Rs SiL SiR Lw Rw");
    if !in_list("FL FR FC FLc FRc Ls Rs SiL SiR Lb Rb BL BR BC Lw Rw") {
        return None;
    }
    Some(match state {
        Horizontal::NoConstraints => true,
        Horizontal::BackExcluded => !back,
        Horizontal::SideExcluded => !side,
        Horizontal::CentreAndBack => centre || back,
        Horizontal::ScreenOnly => screen,
        Horizontal::SurroundOnly => surround,
    })
}

/// The selected layout, or question 9 or 10.
fn select(layout: &SpatialLayout, state: Horizontal, top: bool) -> Result<SpatialLayout, u32> {
    if state == Horizontal::NoConstraints && top {
        return Ok(layout.clone());
    }
    let named = |list: &[&str]| layout.channels.iter().any(|c| list.contains(&c.identity.as_str()));
    let five_x = !named(&["Lb", "Rb", "BL", "BR", "Lw", "Rw"]);
    let by_height = named(&["FLc"]);
    let old = &layout.topology.layers;
    let mut layers = Vec::new();
    for (i, layer) in old.iter().enumerate() {
        let upper = if by_height { layer.z > 0.0 } else { old.len() == 2 && i == 1 };
        let all = upper || by_height && layer.z < 0.0;
        if upper && !top {
            continue;
        }
        let mut rows = Vec::new();
        for row in &layer.rows {
            let mut anchors = row.anchors.clone();
            anchors.retain(|a| all || stays(state, &a.identity, five_x) == Some(true));
            if !anchors.is_empty() {
                rows.push(SpatialLayoutRow { y: row.y, anchors });
            }
        }
        if !rows.is_empty() {
            layers.push(SpatialLayoutLayer { z: layer.z, rows });
        }
    }
    if layers.is_empty() {
        return Err(9);
    }
    let mut floor = old.iter().filter(|l| l.z == 0.0).flat_map(|l| &l.rows).flat_map(|r| &r.anchors);
    if state != Horizontal::NoConstraints && floor.any(|a| stays(state, &a.identity, five_x).is_none()) {
        return Err(10);
    }
    Ok(SpatialLayout::of(layout.channels.clone(), layers))
}

/// The selector's state. An empty place holds a key of epoch 0 without a channel, which no call has.
struct Selector {
    keys: [(SpatialLayout, u64); 8],
    count: u64,
    oldest: u64,
}

impl Selector {
    fn new() -> Self {
        let empty = SpatialLayout::of(Vec::new(), Vec::new());
        Self { keys: std::array::from_fn(|_| (empty.clone(), 0)), count: 0, oldest: 0 }
    }
    /// Question 14.
    fn sound(&self) -> bool {
        self.count <= 8 && self.oldest < 8
    }
    /// The places of the kept list, from the oldest on.
    fn list(&self) -> Vec<usize> {
        (0..self.count).map(|i| ((self.oldest + i) % 8) as usize).collect()
    }
    /// Puts a key last; answers its place.
    fn put(&mut self, key: (SpatialLayout, u64)) -> usize {
        let place = ((self.oldest + self.count) % 8) as usize;
        self.keys[place] = key;
        if self.count == 8 {
            self.oldest = (self.oldest + 1) % 8;
        } else {
            self.count += 1;
        }
        place
    }
}

struct Scene {
    room: Room,
    epoch: u64,
    extent: [f64; 3],
    zones: [bool; 6],
    centre: [f64; 3],
    points: Vec<f64>,
    slots: u64,
    lent: u64,
    store: Vec<f64>,
    selector: Selector,
    original: RegionTopologySelector,
    /// Whether each place holds the numbers that its last call put there.
    untouched: [bool; 8],
    /// Whether `state` has changed the selector since it was fresh.
    moved: bool,
    out: Vec<u8>,
}

impl Scene {
    fn new() -> Self {
        Self {
            room: Room::default(),
            epoch: 0,
            extent: [0.0; 3],
            zones: [true; 6],
            centre: [0.5, 0.5, 0.0],
            points: Vec::new(),
            slots: 24,
            lent: STORE as u64,
            store: vec![0.0; STORE],
            selector: Selector::new(),
            original: RegionTopologySelector::new(),
            untouched: [false; 8],
            moved: false,
            out: Vec::new(),
        }
    }

    fn descriptor(&self) -> SpatialDescriptor {
        SpatialDescriptor::wide(self.centre, self.extent, Some(self.zones), &self.points)
    }

    /// The sixteen questions: the selected layout, or the first that is answered no.
    fn questions(&self) -> Result<SpatialLayout, u32> {
        if let Some(no) = self.room.first_no() {
            return Err(no);
        }
        let layout = self.room.layout();
        let n = self.room.active().len();
        open::read(self.extent)?;
        let Some(state) = horizontal(self.zones) else {
            return Err(8);
        };
        let selected = select(&layout, state, self.zones[5]);
        // the original's selection is the same, or an error too
        let top_bottom = if self.zones[5] { RegionTopBottomState::Include } else { RegionTopBottomState::Exclude };
        let theirs = RegionTopologySelector::new().select(&layout, RegionSemanticState { horizontal: state, top_bottom });
        assert_eq!(selected.as_ref().ok(), theirs.as_ref().ok());
        let selected = selected?;
        if !self.centre.iter().all(|x| x.is_finite()) {
            return Err(11);
        }
        if self.points.len() != n || !self.points.iter().all(|x| x.is_finite() && (0.0..=1.25).contains(x)) {
            return Err(12);
        }
        if self.slots < n as u64 || self.lent < STORE as u64 {
            return Err(13);
        }
        if !self.selector.sound() {
            return Err(14);
        }
        Ok(selected)
    }

    /// Writes a field into its place of the store.
    fn build(&mut self, place: usize, layout: &SpatialLayout, n: usize) {
        let mut at = PLACE * place;
        for (table, size) in open::tables(layout).iter().zip([700, 700, 80, 1, 1, 1, 1, 1, 1]) {
            self.store[at..at + table.len()].copy_from_slice(table);
            at += size * n;
        }
        self.untouched[place] = true;
    }

    fn gains(&mut self) {
        let layout = match self.questions() {
            Ok(layout) => layout,
            Err(no) => {
                // the original refuses what it asks about
                if matches!(no, 7 | 18 | 19 | 8..=10) {
                    let mut fresh = RegionTopologySelector::new();
                    let theirs = region::open::gains(&mut fresh, &self.room.layout(), &self.descriptor(), self.epoch);
                    assert!(theirs.is_err());
                }
                writeln!(self.out, "refused {no}").unwrap();
                return;
            }
        };
        let n = self.room.active().len();
        let (mean, _) = open::read(self.extent).unwrap();
        let descriptor = self.descriptor();
        let theirs = region::open::gains(&mut self.original, &self.room.layout(), &descriptor, self.epoch).unwrap();
        let (word, gains) = if mean == 0 {
            assert!(theirs.iter().map(|x| x.to_bits()).eq(self.points.iter().map(|x| x.to_bits())));
            ("unused", self.points.clone())
        } else {
            let key = (layout, self.epoch);
            let found = self.selector.list().into_iter().find(|&p| self.selector.keys[p] == key);
            let (word, place) = match found {
                Some(place) => ("kept", place),
                None => {
                    let place = self.selector.put(key.clone());
                    self.build(place, &key.0, n);
                    ("built", place)
                }
            };
            let numbers = &self.store[PLACE * place..PLACE * (place + 1)];
            let field = Field::of_place(numbers, n, key.0.topology.layers.len() > 1);
            let gains = field.project(&key.0, &descriptor);
            if self.untouched[place] {
                assert!(gains.iter().map(|x| x.to_bits()).eq(theirs.iter().map(|x| x.to_bits())));
            }
            (word, gains)
        };
        if !self.moved {
            let list: Vec<_> = self.selector.list().iter().map(|&p| self.selector.keys[p].clone()).collect();
            assert_eq!(list, region::open::keys(&self.original));
        }
        assert_eq!(gains.len(), n);
        writeln!(self.out, "{word} {n}").unwrap();
        for (name, gain) in self.room.active().into_iter().zip(gains) {
            writeln!(self.out, "{} {:016x} {}", text(name), bits(gain), decimal(gain)).unwrap();
        }
    }

    fn show(&mut self) {
        write!(self.out, "keys {} {}", self.selector.count, self.selector.oldest).unwrap();
        if self.selector.sound() {
            for place in self.selector.list() {
                write!(self.out, " {}", self.selector.keys[place].1).unwrap();
            }
        }
        let hash = self.store[..self.lent as usize].iter().fold(0, |h: u64, &x| {
            let h = (h * 65599 + (bits(x) & 0xffff_ffff)) % 4294967291;
            (h * 65599 + (bits(x) >> 32)) % 4294967291
        });
        writeln!(self.out, "\nstore {} {hash}", self.lent).unwrap();
    }

    /// One command; none, with nothing changed, if it can't be read.
    fn command(&mut self, word: &[u8], rest: &[&[u8]]) -> Option<()> {
        match (word, rest) {
            (b"layout", []) => self.room = Room::default(),
            (b"channel", [token, flags @ ..]) => {
                let name = name(token)?;
                let (enabled, lfe) = match flags {
                    [] => (true, false),
                    [b"off"] => (false, false),
                    [b"lfe"] => (true, true),
                    [b"off", b"lfe"] => (false, true),
                    _ => return None,
                };
                self.room.channels.push(Channel { name, enabled, lfe });
            }
            (b"layer", [z]) => self.room.layers.push(Layer { z: double(z)?, rows: Vec::new() }),
            (b"row", [y]) => {
                let row = Row { y: double(y)?, anchors: Vec::new() };
                self.room.layers.last_mut()?.rows.push(row);
            }
            (b"anchor", [token, x]) => {
                let anchor = Anchor { name: name(token)?, x: double(x)? };
                self.room.layers.last_mut()?.rows.last_mut()?.anchors.push(anchor);
            }
            (b"epoch", [e]) => self.epoch = whole(e)?,
            (b"extent", [_, _, _]) => self.extent = doubles(rest)?,
            (b"zones", [letters]) => self.zones = zones(letters)?,
            (b"centre", [_, _, _]) => self.centre = doubles(rest)?,
            (b"points", _) => {
                let list: Option<Vec<f64>> = rest.iter().map(|t| double(t)).collect();
                self.points = list.filter(|l| l.len() <= 32)?;
            }
            (b"slots", [n]) => self.slots = whole(n).filter(|&n| n <= 32)?,
            (b"store", [n]) => self.lent = whole(n).filter(|&n| n <= STORE as u64)?,
            (b"fill", [d]) => {
                self.store.fill(double(d)?);
                self.untouched = [false; 8];
            }
            (b"fresh", []) => {
                self.selector = Selector::new();
                self.original = RegionTopologySelector::new();
                self.moved = false;
            }
            (b"state", [count, oldest]) => {
                let (count, oldest) = (whole(count)?, whole(oldest)?);
                self.selector.count = count;
                self.selector.oldest = oldest;
                self.moved = true;
            }
            (b"gains", []) => self.gains(),
            (b"show", []) => self.show(),
            _ => return None,
        }
        Some(())
    }

    fn line(&mut self, number: usize, line: &[u8]) {
        let tokens: Vec<&[u8]> = line.split(|&b| b == b' ').filter(|t| !t.is_empty()).collect();
        let read = if line.len() > LINE {
            None
        } else if tokens.is_empty() || tokens[0][0] == b'#' {
            Some(())
        } else {
            self.command(tokens[0], &tokens[1..])
        };
        if read.is_none() {
            writeln!(self.out, "line {number}: bad").unwrap();
        }
    }
}

fn main() {
    let mut script = Vec::new();
    io::stdin().read_to_end(&mut script).unwrap();
    // a line feed ends a line; the last line needs none
    let script = script.strip_suffix(b"\n").unwrap_or(&script);
    let mut scene = Scene::new();
    if !script.is_empty() {
        for (i, line) in script.split(|&b| b == b'\n').enumerate() {
            scene.line(i + 1, line);
        }
    }
    io::stdout().write_all(&scene.out).unwrap();
}
