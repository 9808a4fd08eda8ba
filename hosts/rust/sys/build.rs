//! Links the archive `liblxr.a`: that of the folder that the environment variable `LXR_LIB_DIR` names, or else that of the installation or
//! the release that this crate is a part of, or else the one that `./lxr --build` makes in the repository.

use std::env;
use std::path::{Path, PathBuf};

/// Where the archive may be, from the crate's folder: in an installation, in a release, and in the repository.
const FOLDERS: [&str; 5] =
    ["../../../../lib", "../../../../lib/x86_64-linux-gnu", "../../../../lib64", "../../../lib", "../../../crates/lxr_c/out"];

fn main() {
    println!("cargo:rerun-if-env-changed=LXR_LIB_DIR");
    if env::var_os("DOCS_RS").is_some() {
        return; // only pages are made there, and nothing is linked
    }
    let here = PathBuf::from(env::var_os("CARGO_MANIFEST_DIR").expect("cargo tells the folder of a crate"));
    let folder = match env::var_os("LXR_LIB_DIR") {
        Some(folder) => PathBuf::from(folder),
        None => FOLDERS.iter().map(|folder| here.join(folder)).find(|folder| archive(folder).exists()).unwrap_or_else(|| here.clone()),
    };
    let archive = archive(&folder);
    assert!(archive.exists(), "there is no {}: name its folder in LXR_LIB_DIR, or make it by ./lxr --build", archive.display());
    println!("cargo:rerun-if-changed={}", archive.display());
    println!("cargo:rustc-link-search=native={}", folder.display());
    println!("cargo:rustc-link-lib=static=lxr");
    println!("cargo:rustc-link-lib=pthread");
}

fn archive(folder: &Path) -> PathBuf {
    folder.join("liblxr.a")
}
