//! Takes extent.rs and region.rs from the folder that OPENJOC_SCENE names (crates/openjoc-scene/src
//! of chyinan/OpenJOC at commit b675bb9bd5), puts the stand-ins of document 01 in place of the calls
//! that no standard fixes, and quantises an extent as request 9 has it. `project` is parted where it has
//! its radius, so that a driver can choose one. Nothing else is changed; the copies stay in the build folder.
use std::{env, fs, path::PathBuf};

/// The rest of `project` as a function of mean and radius.
const PARTED: &str = "self.project_at(layout, descriptor, mean_q, extent_radius(scalar))
    }

    fn project_at(
        &self,
        layout: &SpatialLayout,
        descriptor: &SpatialDescriptor,
        mean_q: u32,
        radius: f64,
    ) -> Result<Vec<f64>, SpatialProjectionError> {";

fn main() {
    println!("cargo:rerun-if-env-changed=OPENJOC_SCENE");
    let from = PathBuf::from(env::var("OPENJOC_SCENE").expect("OPENJOC_SCENE names the folder of extent.rs"));
    let to = PathBuf::from(env::var("OUT_DIR").unwrap());
    // the text, what takes its place, and how often it stands in extent.rs and in region.rs
    let changes = [
        (".cos()", ".stand_in_cos()", [6, 0]),
        (".sin()", ".stand_in_sin()", [5, 0]),
        (".powi(", ".stand_in_powi(", [3, 0]),
        (".log2()", ".stand_in_log2()", [1, 0]),
        ("value.mul_add(Q, 0.5).floor()", "(value * Q).round_ties_even()", [1, 0]),
        ("let radius = extent_radius(scalar);", PARTED, [1, 0]),
        // an inner comment can't stand where the file is included
        ("//!", "//", [6, 6]),
    ];
    for (file, name) in ["extent.rs", "region.rs"].into_iter().enumerate() {
        println!("cargo:rerun-if-changed={}", from.join(name).display());
        let mut text = fs::read_to_string(from.join(name)).expect(name);
        for (old, new, counts) in changes {
            assert_eq!(text.matches(old).count(), counts[file], "{name}: {old}");
            text = text.replace(old, new);
        }
        fs::write(to.join(name), text).unwrap();
        // the calls as they are, for the benchmarks
        let text = fs::read_to_string(from.join(name)).unwrap().replace("//!", "//");
        fs::write(to.join(format!("original_{name}")), text).unwrap();
    }
}
