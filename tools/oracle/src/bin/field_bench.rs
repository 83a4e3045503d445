//! Times `field` and `gains` beside the original in one run: `field_bench PROGRAM`, PROGRAM being the compiled
//! crates/field_vectors. Each time is the difference of two runs that differ in their number of turns.
use oracle::{
    bench::{best, full, run, script},
    extent::open,
    rooms, SpatialDescriptor,
};
use std::{env, fmt::Write as _, hint::black_box};

fn main() {
    let program = env::args().nth(1).expect("the program field_vectors");
    let real = rooms::real();
    println!("{:<34} {:>12} {:>12}   ratio", "", "Rattle", "Rust");
    for (name, l) in [("n = 5 (5.1)", &real[2]), ("n = 11 (7.1.4)", &real[5]), ("n = 24", &full())] {
        let text = script(l);
        let turns = 60;
        let few = run(&program, &format!("{text}923 {:016x}\n", 1));
        let many = run(&program, &format!("{text}923 {:016x}\n", 1 + turns));
        let ours = (many - few) / turns as f64;
        let theirs = best(turns, || {
            black_box(open::Field::build(black_box(l)));
        });
        println!("{:<34} {:>9.1} us {:>9.1} us   {:.2}", format!("build, {name}"), ours * 1e6, theirs * 1e6, ours / theirs);
        let n = l.channels.iter().filter(|c| c.enabled && !c.lfe).count();
        for (kind, extent, centre) in [
            ("field", 0.45, [0.2, 0.5, 0.4]),
            ("field, off the walls", 0.1, [0.5, 0.5, 0.4]),
            ("both", 0.12, [0.3, 0.4, 0.4]),
        ] {
            let mut text = format!("{text}920 {:016x}\n", 0);
            for (i, x) in [extent, extent, extent, centre[0], centre[1], centre[2]].into_iter().enumerate() {
                writeln!(text, "{:03} {:016x}", 930 + i, f64::to_bits(x)).unwrap();
            }
            for _ in 0..n {
                writeln!(text, "936 {:016x}", 0.3f64.to_bits()).unwrap();
            }
            let turns = 1_000_000;
            let few = run(&program, &format!("{text}941 {:016x}\n", 1));
            let many = run(&program, &format!("{text}941 {:016x}\n", 1 + turns));
            let ours = (many - few) / turns as f64;
            let field = open::Field::build(l);
            let descriptor = |x: f64| SpatialDescriptor::wide([x, centre[1], centre[2]], [extent; 3], None, &vec![0.3; n]);
            let both = [descriptor(centre[0]), descriptor(centre[0] + 0.0078125)];
            let mut turn = 0;
            let theirs = best(100_000, || {
                turn += 1;
                black_box(field.project(black_box(l), black_box(&both[turn % 2])));
            });
            let label = format!("project, {kind}, {name}");
            println!("{label:<34} {:>9.1} ns {:>9.1} ns   {:.2}", ours * 1e9, theirs * 1e9, ours / theirs);
        }
    }
}
