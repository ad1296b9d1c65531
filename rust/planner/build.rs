//! Links the archive that `rt lib` writes in crates/planner.

use std::path::Path;

fn main() {
    let folder = Path::new(env!("CARGO_MANIFEST_DIR")).join("../../crates/planner/out");
    let archive = folder.join("libplanner.a");
    assert!(archive.exists(), "{} is missing: run `rt lib` in crates/planner first", archive.display());
    println!("cargo:rerun-if-changed={}", archive.display());
    println!("cargo:rustc-link-search=native={}", folder.display());
    println!("cargo:rustc-link-lib=static=planner");
}
