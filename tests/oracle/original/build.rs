//! Finds the published source in the folder SOLNIX_SRC and hands its paths to the package.
//!
//! Three files are compiled where they lie, byte for byte. `unit.rs` leans on the parser from its
//! first function on, so only its type definitions are cut out, as they stand, into OUT_DIR.

use std::path::{Path, PathBuf};
use std::{env, fs};

const CUT_FROM: &str = "#[derive(Debug, Clone)]\npub struct UnitIr {";
const CUT_TO: &str = "struct LowerCtx {";

fn main() {
    println!("cargo:rerun-if-env-changed=SOLNIX_SRC");
    let folder = env::var("SOLNIX_SRC").unwrap_or_else(|_| {
        panic!("set SOLNIX_SRC to the folder that holds src/emit/ebpf/tracepoint.rs")
    });
    let folder = PathBuf::from(folder);
    assert!(
        folder.is_absolute(),
        "SOLNIX_SRC must be an absolute path: cargo runs each build in a folder of its own"
    );

    name_file("SOLNIX_TRACEPOINT", &folder.join("src/emit/ebpf/tracepoint.rs"));
    name_file("SOLNIX_INSN", &folder.join("src/emit/ebpf/insn.rs"));
    name_file("SOLNIX_INSTRUCTION", &folder.join("src/ir/instruction.rs"));
    cut_unit_types(&folder.join("src/ir/unit.rs"));
}

fn name_file(variable: &str, path: &Path) {
    assert!(path.is_file(), "{} is missing", path.display());
    println!("cargo:rerun-if-changed={}", path.display());
    println!("cargo:rustc-env={variable}={}", path.display());
}

fn cut_unit_types(path: &Path) {
    println!("cargo:rerun-if-changed={}", path.display());
    let text = fs::read_to_string(path).unwrap_or_else(|e| panic!("{}: {e}", path.display()));
    let from = text.find(CUT_FROM).expect("unit.rs defines UnitIr");
    let to = text.find(CUT_TO).expect("unit.rs has its first private type after the public ones");
    let out = PathBuf::from(env::var("OUT_DIR").expect("cargo sets OUT_DIR"));
    fs::write(out.join("unit_types.rs"), &text[from..to]).expect("OUT_DIR can be written");
}
