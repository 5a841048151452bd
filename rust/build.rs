//! Finds libreu.a: in the folder that REU_LIB_DIR names, else where tools/archive writes it.

use std::{env, path::PathBuf};

fn main() {
    let package = PathBuf::from(env::var_os("CARGO_MANIFEST_DIR").expect("cargo sets it"));
    let folder = match env::var_os("REU_LIB_DIR") {
        Some(named) => PathBuf::from(named),
        None => package.join("../target/staticlib"),
    };
    let archive = folder.join("libreu.a");
    println!("cargo::rerun-if-env-changed=REU_LIB_DIR");
    println!("cargo::rerun-if-changed={}", archive.display());
    if !archive.is_file() {
        let message = "is not there: run tools/archive, or name the folder of libreu.a in REU_LIB_DIR";
        println!("cargo::error={} {message}", archive.display());
        return;
    }
    println!("cargo::rustc-link-search=native={}", folder.display());
    println!("cargo::rustc-link-lib=static=reu");
}
