//! Links the archives that `rt lib` writes into each crate's `out/`.
//! Another folder, with all of them, can be given in NWSCRIPT_LIBRARY.

use std::env;
use std::path::PathBuf;
use std::process::exit;

fn main() {
    println!("cargo:rerun-if-env-changed=NWSCRIPT_LIBRARY");
    let given = env::var_os("NWSCRIPT_LIBRARY").map(PathBuf::from);
    let crates = PathBuf::from(env::var_os("CARGO_MANIFEST_DIR").unwrap()).join("../../crates");
    for library in ["exports", "verdict_exports", "run_exports"] {
        let folder = given.clone().unwrap_or_else(|| crates.join(library).join("out"));
        println!("cargo:rustc-link-search=native={}", folder.display());
        let archive = folder.join(format!("lib{library}.a"));
        if !archive.exists() {
            eprintln!("{} is missing: run `rt lib` in crates/{library}.", archive.display());
            exit(1);
        }
        println!("cargo:rerun-if-changed={}", archive.display());
        println!("cargo:rustc-link-lib=static={library}");
    }
}
