//! With the feature `shurtenbo`: links libshurtenbo.a from the folder SHURTENBO_LIB.

use std::env;

fn main() {
    println!("cargo:rerun-if-env-changed=SHURTENBO_LIB");
    if env::var_os("CARGO_FEATURE_SHURTENBO").is_none() {
        return;
    }
    let folder = env::var("SHURTENBO_LIB")
        .unwrap_or_else(|_| panic!("set SHURTENBO_LIB to the folder that holds libshurtenbo.a"));
    println!("cargo:rustc-link-search=native={folder}");
    println!("cargo:rustc-link-lib=static=shurtenbo");
    println!("cargo:rerun-if-changed={folder}/libshurtenbo.a");
}
