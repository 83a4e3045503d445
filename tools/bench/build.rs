//! Links the archive that `rt lib` wrote to the folder that RUGVOCSE_LIBS names.
use std::env;

fn main() {
    println!("cargo:rerun-if-env-changed=RUGVOCSE_LIBS");
    let folder = env::var("RUGVOCSE_LIBS").expect("RUGVOCSE_LIBS names the folder of libdoubles_bench.a");
    println!("cargo:rustc-link-search=native={folder}");
    println!("cargo:rustc-link-lib=static=doubles_bench");
    println!("cargo:rerun-if-changed={folder}/libdoubles_bench.a");
}
