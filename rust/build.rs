//! Links the proved library's archives, and hands the compiler's version to the bench.
use std::path::Path;
use std::process::{exit, Command};

/// The crates that are made archives.
const ARCHIVES: [&str; 2] = ["exports", "edit_exports"];

fn main() {
    for name in ARCHIVES {
        let folder = Path::new(env!("CARGO_MANIFEST_DIR")).join(format!("../crates/{name}/out"));
        let archive = folder.join(format!("lib{name}.a"));
        println!("cargo:rustc-link-search=native={}", folder.display());
        println!("cargo:rerun-if-changed={}", archive.display());
        if !archive.is_file() {
            eprintln!("no archive at {}: run `rt lib` in crates/{name} first", archive.display());
            exit(1);
        }
        println!("cargo:rustc-link-lib=static={name}");
    }
    println!("cargo:rustc-env=COMPILER_VERSION={}", compiler_version());
}

fn compiler_version() -> String {
    let rustc = std::env::var("RUSTC").expect("cargo sets RUSTC");
    let said = Command::new(rustc).arg("--version").output().expect("rustc says its version");
    String::from_utf8_lossy(&said.stdout).trim().to_string()
}
