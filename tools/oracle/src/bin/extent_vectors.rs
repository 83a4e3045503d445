//! Writes the inputs and the answers that crates/extent_vectors replays: `extent_vectors FOLDER`.
//! Mean and radius are the original's with request 9's line; radius, kernel and shaping by themselves are those
//! of its private functions, with the stand-ins.
use oracle::{extent::open, halves, random::Random};
use std::{env, fmt::Write, fs, path::Path};

struct Script {
    inputs: String,
    answers: String,
}

impl Script {
    fn put(&mut self, letter: char, value: u64) {
        writeln!(self.inputs, "{letter} {value:016x}").unwrap();
    }
    fn read(&mut self, extent: [f64; 3]) {
        for (letter, v) in ['x', 'y', 'z'].into_iter().zip(extent) {
            self.put(letter, v.to_bits());
        }
        self.put('r', 0);
        match open::read(extent) {
            Ok((mean, radius)) => writeln!(self.answers, "{mean} {:016x}", radius.to_bits()).unwrap(),
            Err(no) => writeln!(self.answers, "{no}").unwrap(),
        }
    }
    fn answer(&mut self, x: f64) {
        let bits = if x.is_nan() { 0x7ff8_0000_0000_0000 } else { x.to_bits() };
        writeln!(self.answers, "{bits:016x}").unwrap();
    }
    fn radius(&mut self, scalar: f64) {
        self.put('d', scalar.to_bits());
        self.answer(open::radius(scalar));
    }
    fn exponent(&mut self, radius: f64) {
        self.put('e', radius.to_bits());
        self.answer(open::exponent(radius));
    }
    fn shaped(&mut self, value: f64, exponent: f64) {
        self.put('x', value.to_bits());
        self.put('s', exponent.to_bits());
        self.answer(open::shaped(value, exponent));
    }
    /// The kernel on X and Y, and on Z.
    fn kernel(&mut self, u: f64, center: f64, radius: f64) {
        for (letter, v) in ['x', 'y', 'z'].into_iter().zip([u, center, radius]) {
            self.put(letter, v.to_bits());
        }
        for z in [false, true] {
            self.put('k', u64::from(z));
            self.answer(open::kernel(u, center, radius, z));
        }
    }
    /// The means of each of 128 halves, k / 65536 for an odd k, and of the doubles next to it.
    fn halves(&mut self, from: u64) {
        self.put('h', from);
        for i in 0..128 {
            let means = halves::around(from + 2 * i).map(|v| open::read([v; 3]).unwrap().0.to_string());
            writeln!(self.answers, "{}", means.join(" ")).unwrap();
        }
    }
}

/// A component: a half or a double next to one, a whole number of 1 / 32768, one of any exponent, any
/// fraction, an end, -0.
fn component(random: &mut Random) -> f64 {
    match random.below(8) {
        0..=2 => halves::near(random),
        3 => random.below(32769) as f64 / 32768.0,
        4 => f64::from_bits(random.below(1.0f64.to_bits())),
        5 => [0.0, -0.0, 1.0, f64::from_bits(1), 1.0 - f64::EPSILON / 2.0][random.below(5) as usize],
        _ => random.unit(),
    }
}

/// Radius, exponent, shaping and kernel by themselves: at each number that one of their tests compares with, at
/// the doubles next to it and elsewhere.
fn alone(s: &mut Script, random: &mut Random) {
    let odd = [0.0, -0.0, -1.0, 2.0, f64::from_bits(1), f64::MAX, f64::INFINITY, f64::NEG_INFINITY, f64::NAN];
    for knot in [0.2, 0.5, 0.75, 1.0] {
        halves::beside(knot).into_iter().for_each(|v| s.radius(v));
    }
    odd.into_iter().for_each(|v| s.radius(v));
    for radius in [0.125, 0.000025, 0.05, 0.7] {
        halves::beside(radius).into_iter().for_each(|v| s.exponent(v));
    }
    odd.into_iter().for_each(|v| s.exponent(v));
    for _ in 0..100 {
        s.radius(random.unit());
        s.exponent(random.unit());
    }
    // the kernel at no distance, at a quarter of it that is the radius, either way, and next to that
    for radius in [0.000025, 0.05, 0.125].into_iter().flat_map(halves::beside).chain([0.000024, 0.1, 0.25, 0.7]) {
        s.kernel(0.0, 0.0, radius);
        s.kernel(0.5, 0.5, radius);
        for d in halves::beside(4.0 * radius) {
            s.kernel(d, 0.0, radius);
            s.kernel(0.0, d, radius);
        }
    }
    for v in odd {
        s.kernel(0.5, 0.5, v);
        s.kernel(v, 0.5, 0.1);
        s.kernel(0.5, v, 0.1);
    }
    for _ in 0..100 {
        s.kernel(random.unit(), random.unit(), 0.7 * random.unit());
        s.kernel(random.below(20) as f64 / 19.0, random.below(35) as f64 / 34.0, 0.7 * random.below(20) as f64 / 19.0);
    }
    for exponent in [6.0, open::exponent(0.7), 1.0, 0.0, -6.0, f64::INFINITY, f64::NAN] {
        for v in [1.0, 0.5, 0.03, 3.0, 1e-60, f64::MIN_POSITIVE].into_iter().chain(odd) {
            s.shaped(v, exponent);
        }
    }
    for _ in 0..100 {
        let exponent = open::exponent(0.7 * random.unit());
        s.shaped(4.0 * random.unit(), exponent);
    }
}

fn main() {
    let folder = env::args().nth(1).expect("the folder to write to");
    let mut s = Script { inputs: String::new(), answers: String::new() };
    let mut random = Random(9);
    for from in (1..65536).step_by(256) {
        s.halves(from);
    }
    // one component after the other, the others 0 or 1, and all three
    let [below, half, above] = halves::around(1);
    let ends = [0.0, -0.0, f64::from_bits(1), below, half, above, 3.0 / 65536.0, 0.5, 32767.0 / 32768.0, 65535.0 / 65536.0];
    for v in ends.into_iter().chain([1.0 - f64::EPSILON / 2.0, 1.0, 1.0 + f64::EPSILON, -f64::from_bits(1), 2.0, f64::INFINITY, f64::NAN]) {
        for other in [0.0, 1.0] {
            for i in 0..3 {
                let mut extent = [other; 3];
                extent[i] = v;
                s.read(extent);
            }
        }
        s.read([v; 3]);
    }
    for _ in 0..4000 {
        s.read(std::array::from_fn(|_| component(&mut random)));
    }
    alone(&mut s, &mut random);
    fs::write(Path::new(&folder).join("stdin"), s.inputs).unwrap();
    fs::write(Path::new(&folder).join("stdout"), s.answers).unwrap();
}
