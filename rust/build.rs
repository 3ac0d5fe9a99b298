//! Links the static library of the key server: from the directory that PAGERUDDER_LIB names, or from where
//! `tools/build exports` writes it in this repository.
use std::path::PathBuf;
use std::{env, process};

fn main() {
    println!("cargo:rerun-if-env-changed=PAGERUDDER_LIB");
    let here = PathBuf::from(env::var("CARGO_MANIFEST_DIR").expect("cargo sets CARGO_MANIFEST_DIR"));
    let dir = match env::var("PAGERUDDER_LIB") {
        Ok(named) => PathBuf::from(named),
        Err(_) => here.join("../target/staticlib"),
    };
    let archive = dir.join("libexports.a");
    println!("cargo:rerun-if-changed={}", archive.display());
    if !archive.is_file() {
        eprintln!("pagerudder: {} is missing.", archive.display());
        eprintln!("Run `tools/build exports` at the root of the repository: it proves the server and writes the library there.");
        eprintln!("Or set PAGERUDDER_LIB to the directory that has libexports.a.");
        process::exit(1);
    }
    println!("cargo:rustc-link-search=native={}", dir.display());
    println!("cargo:rustc-link-lib=static=exports");
}
