//! Links the programs that call the compiled library with it: target/staticlib/libhalls.a of the repository, or the file that the
//! environment variable HALL_LIBRARY names.

use std::path::PathBuf;

const PROGRAMS: [&str; 2] = ["bench", "compare"];

fn main() {
    println!("cargo:rerun-if-env-changed=HALL_LIBRARY");
    let manifest = PathBuf::from(std::env::var_os("CARGO_MANIFEST_DIR").expect("cargo gives it"));
    let library = match std::env::var_os("HALL_LIBRARY") {
        Some(path) => PathBuf::from(path),
        None => manifest.join("../target/staticlib/libhalls.a"),
    };
    println!("cargo:rerun-if-changed={}", library.display());
    if !library.exists() {
        println!("cargo:warning={} is missing; `scripts/staticlib` makes it", library.display());
    }
    for program in PROGRAMS {
        println!("cargo:rustc-link-arg-bin={program}={}", library.display());
    }
}
