//! Compiles what stands between us and fuzzylite, and says where the static libraries are.
use std::env::var;
use std::process::Command;

fn run(command: &mut Command) {
    assert!(command.status().expect("cannot be started").success(), "{command:?} failed");
}

fn main() {
    let (here, out) = (var("CARGO_MANIFEST_DIR").unwrap(), var("OUT_DIR").unwrap());
    let (object, archive) = (format!("{out}/shim.o"), format!("{out}/libshim.a"));
    let source = format!("{here}/src/shim.cpp");
    run(Command::new("g++").args(["-std=c++11", "-O2", "-Wall", "-Wextra", "-c", &source, "-o", &object]));
    run(Command::new("ar").args(["crs", &archive, &object]));
    println!("cargo:rustc-link-search=native={out}");
    println!("cargo:rustc-link-search=native={here}/../../target/staticlib");
    println!("cargo:rustc-link-lib=static=shim");
    println!("cargo:rustc-link-lib=static=grillenhelm");
    println!("cargo:rustc-link-lib=dylib=fuzzylite");
    println!("cargo:rustc-link-lib=dylib=stdc++");
    println!("cargo:rerun-if-changed={source}");
    println!("cargo:rerun-if-changed={here}/../../target/staticlib/libgrillenhelm.a");
}
