//! Tells the linker where the archive is.

use std::env;
use std::path::PathBuf;

/// Seen from this package.
const FOLDER: &str = "../../crates/robots/out";

const MISSING: &str =
    "crates/robots/out/librobots.a is missing: run 'make' at the repository's root";

fn main() {
    let package = env::var_os("CARGO_MANIFEST_DIR").expect("cargo names the package's folder");
    let folder = PathBuf::from(package).join(FOLDER);
    println!("cargo::rerun-if-changed=build.rs");
    println!("cargo::rerun-if-changed={FOLDER}/librobots.a");
    if !folder.join("librobots.a").is_file() {
        println!("cargo::error={MISSING}");
        return;
    }
    println!("cargo::rustc-link-search=native={}", folder.display());
}
