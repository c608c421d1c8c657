//! Sees to the static library: tools/archive proves and writes it, unless it is newer than its sources.
use std::path::{Path, PathBuf};
use std::process::{exit, Command};
use std::{env, fs};

fn fail(why: &str) -> ! {
    eprintln!("{why}");
    exit(1)
}

/// What the library is made from: the sources and proofs of each crate, and what a crate stands on. What is built beside
/// them, in out, changes with each check.
fn sources(root: &Path) -> Vec<PathBuf> {
    let crates = fs::read_dir(root.join("crates")).unwrap_or_else(|error| fail(&format!("crates: {error}")));
    let folders = crates.flatten().flat_map(|each| ["src", "specs", "proofs"].map(|part| each.path().join(part)));
    folders.filter(|folder| folder.exists()).chain([root.join("crates.txt"), root.join("tools/archive")]).collect()
}

fn write_archive(root: &Path) {
    match Command::new(root.join("tools/archive")).output() {
        Ok(done) if done.status.success() => {}
        Ok(done) => {
            let log = [done.stdout, done.stderr].concat();
            fail(&format!(
                "tools/archive: {}. It wants the Rattle kit in /opt/rattle, or its rt on PATH.\n{}",
                done.status,
                String::from_utf8_lossy(&log)
            ))
        }
        Err(error) => {
            fail(&format!("tools/archive, which writes target/staticlib/libgrillenhelm.a, does not run: {error}"))
        }
    }
}

fn main() {
    let manifest = env::var("CARGO_MANIFEST_DIR").unwrap_or_else(|error| fail(&format!("CARGO_MANIFEST_DIR: {error}")));
    let root = Path::new(&manifest).join("../..");
    write_archive(&root);
    let built = root.join("target/staticlib");
    for path in sources(&root).into_iter().chain([built.join("libgrillenhelm.a")]) {
        println!("cargo:rerun-if-changed={}", path.display());
    }
    println!("cargo:rustc-link-search=native={}", built.display());
    println!("cargo:rustc-link-lib=static=grillenhelm");
}
