//! Links the library as built for the machine at hand: ../target/native, or the folder that HOLZMOTTE_LIB names.
use std::path::PathBuf;

fn main() {
    let here = PathBuf::from(std::env::var("CARGO_MANIFEST_DIR").unwrap());
    let folder = match std::env::var("HOLZMOTTE_LIB") {
        Ok(named) => PathBuf::from(named),
        Err(_) => here.join("../target/native"),
    };
    let archive = folder.join("libholzmotte.a");
    assert!(archive.exists(), "there is no {}: run `make native` first", archive.display());
    println!("cargo:rustc-link-search=native={}", folder.display());
    println!("cargo:rustc-link-lib=static=holzmotte");
    println!("cargo:rerun-if-changed={}", archive.display());
    println!("cargo:rerun-if-env-changed=HOLZMOTTE_LIB");
}
