//! Links the static library that `.ci/library` writes.

use std::env;
use std::path::PathBuf;
use std::process::exit;

fn main() {
    if env::var("CARGO_CFG_TARGET_ARCH").as_deref() != Ok("x86_64") {
        eprintln!("The static library is for x86-64 and links into nothing else.");
        exit(1);
    }
    let own = env::var_os("CARGO_MANIFEST_DIR").expect("cargo sets it");
    let top = PathBuf::from(own).join("../..");
    let folder = top.canonicalize().unwrap_or(top).join("target/staticlib");
    let archive = folder.join("libservice.a");
    println!("cargo:rerun-if-changed={}", archive.display());
    if !archive.is_file() {
        eprintln!("{} is not there.", archive.display());
        eprintln!("Run `.ci/library` at the top of the repository first.");
        exit(1);
    }
    println!("cargo:rustc-link-search=native={}", folder.display());
    println!("cargo:rustc-link-lib=static=service");
}
