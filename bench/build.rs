//! Links the static library of the proved reader, which `bench/run` builds first.

use std::path::Path;

fn main() {
    let library = Path::new(env!("CARGO_MANIFEST_DIR")).join("../target/staticlib");
    println!("cargo::rerun-if-changed={}", library.join("libunit_abi.a").display());
    println!("cargo::rustc-link-search=native={}", library.display());
    println!("cargo::rustc-link-lib=static=unit_abi");
}
