//! Times the call for gains beside the original's `project_outcome_with_epoch` in one run:
//! `selector_bench PROGRAM`, PROGRAM being the compiled crates/selector_bench. Each time is the
//! difference of two runs that differ in their number of turns.
use oracle::{
    bench::{best, full, run, script},
    region::{open, RegionTopologySelector},
    rooms, SpatialDescriptor,
};
use std::{env, hint::black_box};

fn main() {
    let program = env::args().nth(1).expect("the program selector_bench");
    let (real, old) = (rooms::real(), rooms::old());
    println!("{:<44} {:>12} {:>12}   ratio", "", "Rattle", "Rust");
    for (name, l) in [
        ("n = 5 (5.1)", &real[2]),
        ("n = 11 (7.1.4)", &real[5]),
        ("n = 24", &full()),
        // rooms with twins: surround arrays, a rectangle of nodes, 24 anchors on one channel
        ("n = 5, 13 anchors", &old[2]),
        ("n = 5, 18 anchors", &old[5]),
        ("n = 3, 24 anchors", &old[6]),
    ] {
        let n = l.channels.iter().filter(|c| c.enabled && !c.lfe).count();
        // NoConstraints with Include, and with Exclude where the bed has classes, else without the layers above
        for (state, zones) in [("default state", [true; 6]), ("constrained", [true, true, true, true, true, false])] {
            let flags = zones.iter().rev().fold(0u64, |n, &z| n << 1 | u64::from(z));
            let text = format!("{}950 {flags:016x}\n", script(l));
            let descriptor = |x: f64| SpatialDescriptor::wide([x, 0.5, 0.4], [0.45; 3], Some(zones), &vec![0.3; n]);
            let both = [descriptor(0.2), descriptor(0.2078125)];
            let mut selector = RegionTopologySelector::default();
            if open::gains(&mut selector, l, &both[0], 7).is_err() {
                println!("{name}, {state}: refused");
                continue;
            }
            for (kind, command, turns, theirs_turns) in [("kept", 951, 300_000, 20_000), ("built", 952, 60, 60)] {
                let few = run(&program, &format!("{text}{command} {:016x}\n", 10));
                let many = run(&program, &format!("{text}{command} {:016x}\n", 10 + turns));
                let ours = (many - few) / turns as f64;
                let mut turn = 0u64;
                let theirs = best(theirs_turns, || {
                    turn += 1;
                    let epoch = if command == 951 { 7 } else { 1000 + turn };
                    black_box(open::gains(&mut selector, black_box(l), black_box(&both[turn as usize % 2]), epoch).unwrap());
                });
                let label = format!("{kind}, {name}, {state}");
                println!("{label:<44} {:>9.2} us {:>9.2} us   {:.2}", ours * 1e6, theirs * 1e6, ours / theirs);
            }
        }
    }
}
