//! Finds the product's static library: `target/staticlib` of the repository, or
//! the folder that `MSDTP_LIB_DIR` names.

use std::path::{Path, PathBuf};
use std::process::exit;

const ARCHIVE: &str = "libmsdtp.a";

fn main() {
    let folder = folder();
    let archive = folder.join(ARCHIVE);
    println!("cargo::rerun-if-env-changed=MSDTP_LIB_DIR");
    println!("cargo::rerun-if-changed={}", archive.display());
    println!("cargo::rerun-if-changed=build.rs");
    if !archive.is_file() {
        refuse(&archive)
    }
    println!("cargo::rustc-link-search=native={}", folder.display());
    println!("cargo::rustc-link-lib=static=msdtp");
}

fn folder() -> PathBuf {
    match std::env::var_os("MSDTP_LIB_DIR") {
        Some(folder) => PathBuf::from(folder),
        None => Path::new(env!("CARGO_MANIFEST_DIR")).join("../../target/staticlib"),
    }
}

fn refuse(archive: &Path) -> ! {
    eprintln!("{} is not there.", archive.display());
    eprintln!("Build it with `bash archive.sh` in the repository's root,");
    eprintln!("or set MSDTP_LIB_DIR to the folder that has it.");
    exit(1)
}
