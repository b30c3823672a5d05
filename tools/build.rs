//! Links the proved library: from the folder that CAISSON_LIB_DIR names, or else from the one that
//! `make library` writes.

use std::path::Path;
use std::{env, process};

fn main() {
    println!("cargo:rerun-if-env-changed=CAISSON_LIB_DIR");
    let folder = env::var("CAISSON_LIB_DIR").unwrap_or_else(|_| {
        let here = env::var("CARGO_MANIFEST_DIR").expect("cargo names the folder of the crate");
        format!("{here}/../target/staticlib")
    });
    let library = format!("{folder}/libcaisson.a");
    if !Path::new(&library).exists() {
        eprintln!("no {library}: `make library` makes it, or CAISSON_LIB_DIR names its folder");
        process::exit(1);
    }
    println!("cargo:rerun-if-changed={library}");
    println!("cargo:rustc-link-search=native={folder}");
    println!("cargo:rustc-link-lib=static=caisson");
}
