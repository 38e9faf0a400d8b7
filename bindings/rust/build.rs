//! Finds `libhead_library.a`: in the folder that ALDERSKEIN_LIB_DIR names, else in the repository's
//! `crates/head_library/out`, where `rt lib` in `crates/head_library` puts it.

use std::path::PathBuf;
use std::{env, process};

const ARCHIVE: &str = "libhead_library.a";

fn main() {
    println!("cargo:rerun-if-env-changed=ALDERSKEIN_LIB_DIR");
    let folder = folder();
    let archive = folder.join(ARCHIVE);
    if !archive.is_file() {
        eprintln!("{} is missing: `rt lib` in crates/head_library makes it", archive.display());
        eprintln!("(ALDERSKEIN_LIB_DIR names another folder to look in)");
        process::exit(1);
    }
    println!("cargo:rerun-if-changed={}", archive.display());
    println!("cargo:rustc-link-search=native={}", folder.display());
    println!("cargo:rustc-link-lib=static=head_library");
}

fn folder() -> PathBuf {
    match env::var_os("ALDERSKEIN_LIB_DIR") {
        Some(folder) => PathBuf::from(folder),
        None => PathBuf::from(env!("CARGO_MANIFEST_DIR")).join("../../crates/head_library/out"),
    }
}
