//! Compiles the C and makes an archive of it.

use std::env;
use std::path::PathBuf;
use std::process::{exit, Command};

const FLAGS: [&str; 6] = [
    "-std=c11",
    "-O3",
    "-Wall",
    "-Wextra",
    "-Wpedantic",
    "-Werror",
];

fn main() {
    let folder = PathBuf::from(env::var_os("OUT_DIR").expect("cargo names a folder"));
    let object = folder.join("plain.o");
    println!("cargo::rerun-if-changed=build.rs");
    println!("cargo::rerun-if-changed=src/plain.c");
    println!("cargo::rerun-if-changed=src/plain.h");
    run(Command::new("gcc")
        .args(FLAGS)
        .args(["-c", "src/plain.c", "-o"])
        .arg(&object));
    run(Command::new("ar")
        .arg("crs")
        .arg(folder.join("libplain.a"))
        .arg(&object));
    println!("cargo::rustc-link-search=native={}", folder.display());
}

fn run(command: &mut Command) {
    let tool = command.get_program().to_owned();
    let done = command.status().is_ok_and(|status| status.success());
    if !done {
        println!(
            "cargo::error={} failed: see its messages, or install it",
            tool.display()
        );
        exit(1);
    }
}
