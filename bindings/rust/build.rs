//! Finds the archive that `tools/build nakwemol` writes: in the folder that NAKWEMOL_ARCHIVE names, else in target/staticlib of this repository.
use std::env;
use std::path::{Path, PathBuf};

fn archive_folder() -> PathBuf {
    match env::var_os("NAKWEMOL_ARCHIVE") {
        Some(folder) => PathBuf::from(folder),
        None => Path::new(&env::var_os("CARGO_MANIFEST_DIR").expect("cargo sets it")).join("../../target/staticlib"),
    }
}

fn main() {
    let folder = archive_folder();
    let archive = folder.join("libnakwemol.a");
    println!("cargo:rerun-if-env-changed=NAKWEMOL_ARCHIVE");
    println!("cargo:rerun-if-changed={}", archive.display());
    if !archive.is_file() {
        eprintln!("{} is not there: make it by `tools/build nakwemol`, or name its folder in NAKWEMOL_ARCHIVE", archive.display());
        std::process::exit(1);
    }
    println!("cargo:rustc-link-search=native={}", folder.display());
    println!("cargo:rustc-link-lib=static=nakwemol");
}
