//! Links the archive of proved functions that `tools/build ffi` writes.
use std::path::PathBuf;
use std::{env, fs};

fn main() {
    println!("cargo:rerun-if-env-changed=ACCESS_BASE_ARCHIVE");
    let root = PathBuf::from(env::var("CARGO_MANIFEST_DIR").unwrap()).join("../../..");
    let archive = match env::var("ACCESS_BASE_ARCHIVE") {
        Ok(path) => PathBuf::from(path),
        Err(_) => root.join("target/staticlib/libffi.a"),
    };
    println!("cargo:rerun-if-changed={}", archive.display());
    let out = PathBuf::from(env::var("OUT_DIR").unwrap());
    // Its own name, since a system may have another library called ffi.
    if let Err(e) = fs::copy(&archive, out.join("libaccess_base.a")) {
        panic!(
            "{}: {e}\nrun `tools/build ffi` in the repository's root, or name the archive in ACCESS_BASE_ARCHIVE",
            archive.display()
        );
    }
    println!("cargo:rustc-link-search=native={}", out.display());
    println!("cargo:rustc-link-lib=static=access_base");
}
