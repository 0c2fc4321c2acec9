// Links the proved archive: libmm_host.a in the folder that MM_HOST_LIB names, or in ../target/staticlib, where `make staticlib` writes it.
use std::env;
use std::path::{Path, PathBuf};

fn main() {
    println!("cargo:rerun-if-env-changed=MM_HOST_LIB");
    let folder = env::var_os("MM_HOST_LIB").map_or_else(default_folder, PathBuf::from);
    let archive = folder.join("libmm_host.a");
    println!("cargo:rerun-if-changed={}", archive.display());
    assert!(archive.is_file(), "{} isn't there: run `make staticlib`, or name the archive's folder in MM_HOST_LIB", archive.display());
    println!("cargo:rustc-link-search=native={}", folder.display());
    println!("cargo:rustc-link-lib=static=mm_host");
}

fn default_folder() -> PathBuf {
    let here = env::var_os("CARGO_MANIFEST_DIR").expect("cargo names the crate's folder");
    Path::new(&here).join("../target/staticlib")
}
