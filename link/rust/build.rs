//! Links libtankcurve_abi.a, from TANKCURVE_LIB_DIR or else from target/staticlib of the repository.

use std::env;
use std::path::PathBuf;
use std::process::exit;

fn main() {
    let manifest = PathBuf::from(env::var_os("CARGO_MANIFEST_DIR").unwrap_or_default());
    let given = env::var_os("TANKCURVE_LIB_DIR").map(PathBuf::from);
    let folder = given.unwrap_or_else(|| manifest.join("../../target/staticlib"));
    let archive = folder.join("libtankcurve_abi.a");
    println!("cargo:rerun-if-env-changed=TANKCURVE_LIB_DIR");
    println!("cargo:rerun-if-changed={}", archive.display());
    if !archive.is_file() {
        eprintln!("{} is not there.", archive.display());
        eprintln!("`link/archive`, run in the repository's root, makes it in target/staticlib;");
        eprintln!("TANKCURVE_LIB_DIR may name another folder that has it.");
        exit(1);
    }
    println!("cargo:rustc-link-search=native={}", folder.display());
    println!("cargo:rustc-link-lib=static=tankcurve_abi");
}
