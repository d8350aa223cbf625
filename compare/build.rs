//! Tells the linker where the static libraries are, if they are asked for: in MRP_LIB_DIR, or in target/staticlib of the
//! repository.

use std::env;
use std::path::{Path, PathBuf};

fn main() {
    if env::var_os("CARGO_FEATURE_LIBRARY").is_none() {
        return;
    }
    println!("cargo:rerun-if-env-changed=MRP_LIB_DIR");
    let directory = match env::var_os("MRP_LIB_DIR") {
        Some(given) => PathBuf::from(given),
        None => PathBuf::from(env!("CARGO_MANIFEST_DIR")).join("../target/staticlib"),
    };
    println!("cargo:rerun-if-changed={}", directory.display());
    println!("cargo:rustc-link-search=native={}", directory.display());
    println!("cargo:rustc-link-lib=static=firmware");
    expect(&directory.join("libfirmware.a"));
    if env::var_os("CARGO_FEATURE_STORE").is_some() {
        expect(&directory.join("libmeasure_store.a"));
    }
}

fn expect(archive: &Path) {
    if !archive.is_file() {
        println!("cargo:warning={} is not there: build it, or set MRP_LIB_DIR", archive.display());
    }
}
