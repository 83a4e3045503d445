//! Writes the inputs and the answers that crates/region_vectors replays: `region_vectors FOLDER`.
//! The answers are the original's: `from_decoded_zones`, `to_decoded_zones`, `is_default`,
//! `matches_bed_state` and `RegionTopologySelector::select`.
use oracle::{
    random::Random,
    region::{open::bed, RegionHorizontalState, RegionSemanticState, RegionTopBottomState, RegionTopologySelector},
    rooms, SpatialLayout, SpatialProjectionError,
};
use std::{collections::BTreeMap, env, fmt::Write, fs, path::Path};

const STATES: [RegionHorizontalState; 6] = [
    RegionHorizontalState::NoConstraints,
    RegionHorizontalState::BackExcluded,
    RegionHorizontalState::SideExcluded,
    RegionHorizontalState::CentreAndBack,
    RegionHorizontalState::ScreenOnly,
    RegionHorizontalState::SurroundOnly,
];

/// The sixteen, and names near them.
const NAMES: [&str; 16] =
    ["FL", "FR", "FC", "FLc", "FRc", "Ls", "Rs", "SiL", "SiR", "Lb", "Rb", "BL", "BR", "BC", "Lw", "Rw"];
const OTHERS: [&str; 24] = [
    "", "F", "L", "R", "C", "LFE", "fl", "FLC", "FCc", "LS", "LB", "LW", "Bc", "BLc", "SiC", "Sil", "Lsb", "TpFL", "TpSiL",
    "BtFL", "FLcFLcFL", "FL FL", "eightlet", "~",
];

fn packed(name: &str) -> u64 {
    name.bytes().rev().fold(0, |n, b| n << 8 | u64::from(b))
}

fn mixed(h: u64, half: u64) -> u64 {
    (h % 4294967291 * 65599 + half % 0x1_0000_0000) % 4294967291
}

fn hash(words: &[u64]) -> u64 {
    words.iter().fold(0, |h, &w| mixed(mixed(h, w), w >> 32))
}

/// Two words for each layer, row and anchor, and zeros up to as many as there are places.
fn flat(layout: &SpatialLayout) -> [Vec<u64>; 3] {
    let [mut layers, mut rows, mut anchors] = [Vec::new(), Vec::new(), Vec::new()];
    for layer in &layout.topology.layers {
        layers.extend([layer.z.to_bits(), layer.rows.len() as u64]);
        for row in &layer.rows {
            rows.extend([row.y.to_bits(), row.anchors.len() as u64]);
            for anchor in &row.anchors {
                anchors.extend([packed(&anchor.identity), anchor.x.to_bits()]);
            }
        }
    }
    [layers, rows, anchors]
}

struct Script {
    inputs: String,
    answers: String,
    told: BTreeMap<String, usize>,
}

impl Script {
    fn put(&mut self, command: usize, value: u64) {
        writeln!(self.inputs, "{command:03} {value:016x}").unwrap();
    }
    fn answer(&mut self, kind: &str, line: String) {
        writeln!(self.answers, "{line}").unwrap();
        *self.told.entry(kind.to_owned()).or_default() += 1;
    }

    fn flags(&mut self, v: u64) {
        self.put(910, v);
        let flags = [32, 16, 8, 4, 2, 1].map(|bit| v & bit != 0);
        match RegionSemanticState::from_decoded_zones(flags) {
            Ok(s) => {
                let h = STATES.iter().position(|&h| h == s.horizontal).unwrap();
                let top = u8::from(s.top_bottom == RegionTopBottomState::Include);
                let back: String = s.to_decoded_zones().iter().map(|&b| if b { '1' } else { '0' }).collect();
                self.answer("flags", format!("{h} {top} {} {back}", u8::from(s.is_default())));
            }
            Err(_) => self.answer("flags refused", "8".to_owned()),
        }
    }

    fn name(&mut self, name: &str) {
        self.put(911, packed(name));
        let mut line = String::new();
        for state in STATES {
            for five in [false, true] {
                line.push(match bed(state, name, five) {
                    Some(false) => '0',
                    Some(true) => '1',
                    None => '2',
                });
            }
        }
        self.answer("names", line);
    }

    fn room(&mut self, layout: &SpatialLayout) {
        self.put(900, 0);
        for channel in &layout.channels {
            self.put(901, packed(&channel.identity));
            self.put(902, u64::from(channel.enabled) + 2 * u64::from(channel.lfe));
        }
        for layer in &layout.topology.layers {
            self.put(903, layer.z.to_bits());
            for row in &layer.rows {
                self.put(904, row.y.to_bits());
                for anchor in &row.anchors {
                    self.put(901, packed(&anchor.identity));
                    self.put(905, anchor.x.to_bits());
                }
            }
        }
        for (h, &horizontal) in STATES.iter().enumerate() {
            for (top, top_bottom) in [RegionTopBottomState::Exclude, RegionTopBottomState::Include].into_iter().enumerate() {
                self.put(912, (2 * h + top) as u64);
                match RegionTopologySelector::new().select(layout, RegionSemanticState { horizontal, top_bottom }) {
                    Ok(selected) => {
                        assert_eq!(selected.channels, layout.channels);
                        let [mut layers, mut rows, mut anchors] = flat(&selected);
                        let [d, r, a] = [layers.len() / 2, rows.len() / 2, anchors.len() / 2];
                        layers.resize(8, 0);
                        rows.resize(48, 0);
                        anchors.resize(48, 0);
                        let line = format!("0 {d} {r} {a} {} {} {}", hash(&layers), hash(&rows), hash(&anchors));
                        self.answer(if selected == *layout { "the layout itself" } else { "a part of it" }, line);
                    }
                    Err(SpatialProjectionError::UnsupportedRegionLayout(why)) => {
                        let n = if why.starts_with("region selection") { 9 } else { 10 };
                        self.answer(&format!("refused {n}"), n.to_string());
                    }
                    Err(other) => panic!("{other:?}"),
                }
            }
        }
    }
}

fn main() {
    let folder = env::args().nth(1).expect("the folder to write to");
    let mut s = Script { inputs: String::new(), answers: String::new(), told: BTreeMap::new() };
    for v in 0..64 {
        s.flags(v);
    }
    for name in NAMES.into_iter().chain(OTHERS) {
        s.name(name);
    }
    for room in rooms::real() {
        s.room(&room);
    }
    let mut random = Random(11);
    for round in 0..120 {
        s.room(&rooms::random(&mut random, [4, 8, 16, 24][round % 4]));
    }
    for room in rooms::old() {
        s.room(&room);
    }
    for round in 0..40 {
        s.room(&rooms::twinned(&mut random, [4, 8, 12, 20][round % 4]));
    }
    for room in rooms::inactive() {
        s.room(&room);
    }
    eprintln!("answers: {:?}", s.told);
    fs::write(Path::new(&folder).join("stdin"), s.inputs).unwrap();
    fs::write(Path::new(&folder).join("stdout"), s.answers).unwrap();
}
