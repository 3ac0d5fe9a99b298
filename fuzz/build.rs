//! Links libFuzzer, from the directory that FUZZER_LIB names.

fn main() {
    println!("cargo:rerun-if-env-changed=FUZZER_LIB");
    if let Ok(place) = std::env::var("FUZZER_LIB") {
        println!("cargo:rustc-link-search=native={place}");
    }
    println!("cargo:rustc-link-lib=static=clang_rt.fuzzer-x86_64");
    println!("cargo:rustc-link-lib=dylib=stdc++");
}
