//! Times `doubles` beside the original in one run: the same inputs, the same loops, as ratios.
use oracle::original;
use std::{hint::black_box, time::Instant};

extern "C" {
    fn rug_sum_floor(v: *const f64, n: usize) -> f64;
    fn rug_sum_sqrt(v: *const f64, n: usize) -> f64;
    fn rug_sum_exp2(v: *const f64, n: usize) -> f64;
    fn rug_sum_log2(v: *const f64, n: usize) -> f64;
    fn rug_chain_sqrt(v: *const f64, n: usize) -> f64;
}

struct Random(u64);

impl Random {
    fn unit(&mut self) -> f64 {
        self.0 = self.0.wrapping_add(0x9e37_79b9_7f4a_7c15);
        let mut z = self.0;
        z = (z ^ (z >> 30)).wrapping_mul(0xbf58_476d_1ce4_e5b9);
        z = (z ^ (z >> 27)).wrapping_mul(0x94d0_49bb_1331_11eb);
        ((z ^ (z >> 31)) >> 11) as f64 / 9007199254740992.0
    }
}

/// Nanoseconds for each number of v: the best of many turns.
fn best(v: &[f64], f: &dyn Fn(&[f64]) -> f64) -> f64 {
    let mut least = f64::INFINITY;
    for _ in 0..200 {
        let start = Instant::now();
        black_box(f(black_box(v)));
        least = least.min(start.elapsed().as_nanos() as f64 / v.len() as f64);
    }
    least
}

fn row(name: &str, v: &[f64], ours: &dyn Fn(&[f64]) -> f64, theirs: &dyn Fn(&[f64]) -> f64) {
    assert_eq!(ours(v).to_bits(), theirs(v).to_bits(), "{name}");
    let (a, b) = (best(v, ours), best(v, theirs));
    println!("{name:<36} {a:>8.2} ns {b:>8.2} ns   {:.2}", a / b);
}

fn main() {
    let mut random = Random(1);
    let mut list = |low: f64, high: f64| (0..10_000).map(|_| low + (high - low) * random.unit()).collect::<Vec<_>>();
    println!("{:<36} {:>11} {:>11}   ratio", "", "Rattle", "Rust");
    let v = list(-40.0, 40.0);
    row("floor, from -40 to 40", &v, &|v| unsafe { rug_sum_floor(v.as_ptr(), v.len()) }, &|v| {
        v.iter().fold(0.0, |s, x| s + x.floor())
    });
    let v = list(0.0, 24.0);
    row("sqrt, from 0 to 24", &v, &|v| unsafe { rug_sum_sqrt(v.as_ptr(), v.len()) }, &|v| {
        v.iter().fold(0.0, |s, x| s + x.sqrt())
    });
    row("sqrt, dependent chain", &v, &|v| unsafe { rug_chain_sqrt(v.as_ptr(), v.len()) }, &|v| {
        v.iter().fold(0.0, |y: f64, x| (x + y).sqrt())
    });
    // what the kernel and the shaping hand to the approximations
    let v = list(-17.0, 0.0);
    row("approx_exp2 (powi), from -17 to 0", &v, &|v| unsafe { rug_sum_exp2(v.as_ptr(), v.len()) }, &|v| {
        v.iter().fold(0.0, |s, x| s + original::open::exp2(*x))
    });
    let v = list(-200.0, 20.0);
    row("approx_exp2 (powi), from -200 to 20", &v, &|v| unsafe { rug_sum_exp2(v.as_ptr(), v.len()) }, &|v| {
        v.iter().fold(0.0, |s, x| s + original::open::exp2(*x))
    });
    let v = list(1e-6, 1.0);
    row("approx_log2 (powi), from 0 to 1", &v, &|v| unsafe { rug_sum_log2(v.as_ptr(), v.len()) }, &|v| {
        v.iter().fold(0.0, |s, x| s + original::open::log2(*x))
    });
}
