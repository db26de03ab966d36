//! Tells the package where the program is.

use std::env;
use std::path::PathBuf;

/// Seen from this package.
const PROGRAM: &str = "../../crates/robots_decide/out/robots_decide";

const MISSING: &str =
    "crates/robots_decide/out/robots_decide is missing: run 'make' at the repository's root";

fn main() {
    let package = env::var_os("CARGO_MANIFEST_DIR").expect("cargo names the package's folder");
    let program = PathBuf::from(package).join(PROGRAM);
    println!("cargo::rerun-if-changed=build.rs");
    println!("cargo::rerun-if-changed={PROGRAM}");
    if !program.is_file() {
        println!("cargo::error={MISSING}");
        return;
    }
    println!("cargo::rustc-env=ROBOTS_DECIDE={}", program.display());
}
