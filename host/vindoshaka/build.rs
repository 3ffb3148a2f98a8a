//! Says where libvindoshaka.a is: VINDOSHAKA_LIB, else lib/ in this crate, else crates/vindoshaka/out of the repository.
use std::env;
use std::path::{Path, PathBuf};

fn main() {
    println!("cargo:rerun-if-env-changed=VINDOSHAKA_LIB");
    let here = PathBuf::from(env::var("CARGO_MANIFEST_DIR").expect("cargo sets it"));
    let folders = match env::var("VINDOSHAKA_LIB") {
        Ok(folder) => vec![PathBuf::from(folder)],
        Err(_) => vec![here.join("lib"), here.join("../../crates/vindoshaka/out")],
    };
    let archive = |folder: &Path| folder.join("libvindoshaka.a");
    let folder = match folders.iter().find(|folder| archive(folder).exists()) {
        Some(folder) => folder,
        None => panic!(
            "no libvindoshaka.a in {folders:?}: build it, or set VINDOSHAKA_LIB to its folder"
        ),
    };
    println!("cargo:rerun-if-changed={}", archive(folder).display());
    println!("cargo:rustc-link-search=native={}", folder.display());
    println!("cargo:rustc-link-lib=static=vindoshaka");
}
