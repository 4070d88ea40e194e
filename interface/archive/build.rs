//! Links libhandset.a from the folder HANDSET_LIB; without it from target/staticlib.

use std::{env, path::PathBuf};

fn main() {
    let package = PathBuf::from(env::var("CARGO_MANIFEST_DIR").expect("cargo sets it"));
    let usual = package.join("../../target/staticlib");
    let folder = env::var_os("HANDSET_LIB").map_or(usual, PathBuf::from);
    println!("cargo:rerun-if-env-changed=HANDSET_LIB");
    println!("cargo:rerun-if-changed={}", folder.join("libhandset.a").display());
    println!("cargo:rustc-link-search=native={}", folder.display());
    println!("cargo:rustc-link-lib=static=handset");
}
