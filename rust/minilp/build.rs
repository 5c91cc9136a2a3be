//! Finds the folder of minilp's files: MINILP_SRC, or the folder beside the project.
use std::path::{Path, PathBuf};
use std::process::exit;

const FILES: [&str; 3] = ["helpers.rs", "sparse.rs", "ordering.rs"];

fn main() {
    println!("cargo:rerun-if-env-changed=MINILP_SRC");
    let folder = folder();
    for file in FILES {
        let path = folder.join(file);
        println!("cargo:rerun-if-changed={}", path.display());
        if !path.is_file() {
            eprintln!("no {}: set MINILP_SRC to the folder that holds minilp 0.2.2's {}", path.display(), FILES.join(", "));
            exit(1);
        }
    }
    println!("cargo:rustc-env=MINILP_SRC={}", folder.display());
}

// An absolute path, since include! starts from the file that it stands in. A relative name starts from rust/.
fn folder() -> PathBuf {
    let named = std::env::var_os("MINILP_SRC").unwrap_or("../../shared/docs/src/src".into());
    let folder = Path::new(env!("CARGO_MANIFEST_DIR")).join("..").join(named);
    folder.canonicalize().unwrap_or(folder)
}
