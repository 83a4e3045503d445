//! What the benchmarks share: a layout as a script, the time of a program on a script, and a full room.
use crate::{random::Random, rooms, SpatialLayout};
use std::{
    fmt::Write as _,
    io::Write as _,
    process::{Command, Stdio},
    time::Instant,
};

pub fn packed(name: &str) -> u64 {
    name.bytes().rev().fold(0, |n, b| n << 8 | u64::from(b))
}

pub fn script(l: &SpatialLayout) -> String {
    let mut text = String::new();
    let mut put = |k: usize, v: u64| writeln!(text, "{k:03} {v:016x}").unwrap();
    put(900, 0);
    for c in &l.channels {
        put(901, packed(&c.identity));
        put(902, u64::from(c.enabled) | u64::from(c.lfe) << 1);
    }
    for layer in &l.topology.layers {
        put(903, layer.z.to_bits());
        for row in &layer.rows {
            put(904, row.y.to_bits());
            for a in &row.anchors {
                put(901, packed(&a.identity));
                put(905, a.x.to_bits());
            }
        }
    }
    text
}

/// Seconds of the program on a script; the best of some runs.
pub fn run(program: &str, script: &str) -> f64 {
    (0..5)
        .map(|_| {
            let mut child =
                Command::new(program).stdin(Stdio::piped()).stdout(Stdio::null()).spawn().expect("the program");
            let start = Instant::now();
            child.stdin.take().unwrap().write_all(script.as_bytes()).unwrap();
            child.wait().unwrap();
            start.elapsed().as_secs_f64()
        })
        .fold(f64::INFINITY, f64::min)
}

pub fn best(turns: u64, mut f: impl FnMut()) -> f64 {
    (0..5)
        .map(|_| {
            let start = Instant::now();
            for _ in 0..turns {
                f();
            }
            start.elapsed().as_secs_f64() / turns as f64
        })
        .fold(f64::INFINITY, f64::min)
}

pub fn full() -> SpatialLayout {
    let mut random = Random(3);
    loop {
        let l = rooms::random(&mut random, 24);
        let anchors: usize = l.topology.layers.iter().flat_map(|x| &x.rows).map(|r| r.anchors.len()).sum();
        if anchors == 24 && l.topology.layers.len() > 1 {
            return l;
        }
    }
}
