//! Writes the inputs and the answers that crates/doubles_vectors replays: `doubles_vectors FOLDER`.
//! floor and sqrt are the machine's, approx_exp2 and approx_log2 the original's with the stand-ins,
//! the others the stand-ins of document 01.
use oracle::{extent::open, random::Random, standins};
use std::{collections::BTreeSet, env, fmt::Write, fs, path::Path};

fn pattern(x: f64) -> u64 {
    if x.is_nan() {
        0x7ff8_0000_0000_0000
    } else {
        x.to_bits()
    }
}

fn truth(b: bool) -> u64 {
    u64::from(b)
}

/// A function's letter, and the function on patterns.
const FUNCTIONS: [(char, fn(u64) -> u64); 12] = [
    ('f', |b| pattern(f64::from_bits(b).floor())),
    ('r', |b| pattern(f64::from_bits(b).sqrt())),
    ('p', |b| pattern(standins::pow2(b as i64))),
    ('q', |b| pattern(standins::pow2(i64::from(b as u32 as i32)))),
    ('g', |b| pattern(standins::pow2(standins::floor_log2(f64::from_bits(b))))),
    ('s', |b| pattern(standins::sine(f64::from_bits(b)))),
    ('c', |b| pattern(standins::cosine(f64::from_bits(b)))),
    ('e', |b| pattern(open::exp2(f64::from_bits(b)))),
    ('l', |b| pattern(open::log2(f64::from_bits(b)))),
    ('i', |b| truth(f64::from_bits(b).is_finite())),
    ('b', |b| truth((0.0..=1.0).contains(&f64::from_bits(b)))),
    ('k', |b| pattern(f64::from_bits(b).clamp(0.0, 1.0))),
];

/// Doubles at which some case of some function begins or ends.
fn edges() -> Vec<f64> {
    let h = std::f64::consts::FRAC_PI_2;
    let mut list = vec![
        0.0,
        1.0,
        0.5,
        h,
        h / 2.0,
        f64::MIN_POSITIVE,
        f64::MAX,
        f64::from_bits(1),
        f64::from_bits(0xf_ffff_ffff_ffff),
        f64::INFINITY,
        f64::NAN,
    ];
    for k in [30, 31, 32, 50, 51, 52, 53, 54, 63, 64, 1022, 1023] {
        list.push(standins::pow2(k));
    }
    for n in [1022.0, 1023.0, 1024.0, 1074.0, 1075.0, 1076.0, 2147483647.0, 2147483648.0, 4503599627370495.5] {
        list.push(n);
    }
    // halves and wholes, for floor
    for n in 0..24 {
        list.push(f64::from(n) / 2.0);
    }
    let mut near = Vec::new();
    for x in list {
        let b = x.to_bits();
        for d in -2i64..=2 {
            near.push(f64::from_bits(b.wrapping_add(d as u64)));
        }
    }
    near.iter().flat_map(|&x| [x, -x]).collect()
}

fn doubles(random: &mut Random) -> Vec<u64> {
    let mut list: BTreeSet<u64> = edges().into_iter().map(pattern).collect();
    // every exponent with random digits, the sign by turns; every second one near the exponent's end
    for field in 0..2047u64 {
        let digits = match field % 4 {
            0 => 0,
            1 => 0xf_ffff_ffff_ffff,
            _ => random.next() >> 12,
        };
        list.insert((field % 3 / 2) << 63 | field << 52 | digits);
    }
    // subnormals of every length
    for k in 0..52 {
        list.insert(1 << k);
        list.insert((1 << k) | (random.next() & ((1 << k) - 1)));
    }
    // numbers of the sizes that gains, angles and exponents have
    for _ in 0..250 {
        let unit = (random.next() >> 11) as f64 / 9007199254740992.0;
        for scale in [1.0, 1.6, 40.0, -40.0, 1100.0, -1100.0] {
            list.insert(pattern(unit * scale));
        }
    }
    for _ in 0..400 {
        list.insert(pattern(f64::from_bits(random.next())));
    }
    list.into_iter().collect()
}

/// Squares of doubles of few digits and of midpoints, with their neighbours: the close cases of a root.
fn near_squares(random: &mut Random) -> Vec<u64> {
    let mut list = BTreeSet::new();
    for _ in 0..200 {
        let g = (1 << 26) | (random.next() >> 38);
        let square = (g * g) as f64 * standins::pow2((random.next() % 900) as i64 - 500);
        for d in -1i64..=1 {
            list.insert(square.to_bits().wrapping_add(d as u64));
        }
    }
    list.into_iter().collect()
}

/// Angles at distances of every power of two from H/2 and from H, below and above: the close cases of
/// the complement.
fn turns(random: &mut Random) -> Vec<u64> {
    let mut list = BTreeSet::new();
    for end in [std::f64::consts::FRAC_PI_4, std::f64::consts::FRAC_PI_2] {
        for k in 0..54 {
            let unit = (random.next() >> 11) as f64 / 9007199254740992.0;
            for distance in [standins::pow2(-k), (1.0 + unit) * standins::pow2(-k)] {
                list.insert(pattern(end - distance));
                list.insert(pattern(end + distance));
            }
        }
    }
    list.into_iter().collect()
}

fn powers() -> Vec<u64> {
    let mut list: BTreeSet<i64> = (-1100..1100).collect();
    for edge in [i64::MIN, i64::MAX, i64::from(i32::MIN), i64::from(i32::MAX)] {
        for d in -2..=2 {
            list.insert(edge.saturating_add(d));
        }
    }
    list.into_iter().map(|n| n as u64).collect()
}

fn main() {
    let folder = env::args().nth(1).expect("the folder to write to");
    let mut random = Random(2026);
    let common = doubles(&mut random);
    let squares = near_squares(&mut random);
    let turns = turns(&mut random);
    let (mut inputs, mut answers) = (String::new(), String::new());
    for (letter, function) in FUNCTIONS {
        let list = match letter {
            'p' => powers(),
            'q' => powers().into_iter().filter(|&b| i32::try_from(b as i64).is_ok()).map(|b| b & 0xffff_ffff).collect(),
            'r' => [common.clone(), squares.clone()].concat(),
            's' | 'c' => [common.clone(), turns.clone()].concat(),
            'g' | 'i' | 'b' | 'k' => common.iter().copied().step_by(4).collect(),
            _ => common.clone(),
        };
        for b in list {
            writeln!(inputs, "{letter} {b:016x}").unwrap();
            writeln!(answers, "{letter} {:016x}", function(b)).unwrap();
        }
    }
    fs::write(Path::new(&folder).join("stdin"), inputs).unwrap();
    fs::write(Path::new(&folder).join("stdout"), answers).unwrap();
}
