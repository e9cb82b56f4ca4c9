//! Proves the library and builds libshurtenbo.a with `tools/staticlib.sh`, in the repository above this folder.
//! Where SHURTENBO_LIB names a folder that holds the library already, that one is linked.

use std::env;
use std::fs;
use std::path::{Path, PathBuf};
use std::process::Command;

fn built(root: &Path) -> PathBuf {
    watch_sources(root);
    match Command::new("sh").arg(root.join("tools/staticlib.sh")).status() {
        Ok(status) if status.success() => root.join("target/staticlib"),
        Ok(status) => panic!("tools/staticlib.sh, which needs the Rattle kit's tool rt: {status}"),
        Err(e) => panic!("tools/staticlib.sh does not run: {e}"),
    }
}

/// The folders that the library is made from. What `rt` keeps of its work stands beside them, in out/.
fn watch_sources(root: &Path) {
    println!("cargo:rerun-if-changed={}", root.join("crates.txt").display());
    for entry in fs::read_dir(root.join("crates")).unwrap() {
        for part in ["src", "specs", "proofs"] {
            let folder = entry.as_ref().unwrap().path().join(part);
            if folder.exists() {
                println!("cargo:rerun-if-changed={}", folder.display());
            }
        }
    }
}

fn main() {
    let root = PathBuf::from(env::var("CARGO_MANIFEST_DIR").unwrap()).join("..");
    println!("cargo:rerun-if-env-changed=SHURTENBO_LIB");
    let folder = env::var_os("SHURTENBO_LIB").map_or_else(|| built(&root), PathBuf::from);
    println!("cargo:rerun-if-changed={}", folder.join("libshurtenbo.a").display());
    println!("cargo:rustc-link-search=native={}", folder.display());
    println!("cargo:rustc-link-lib=static=shurtenbo");
}
