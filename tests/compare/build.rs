//! Links the port's archive from the folder that SLUICEPOD_ARCHIVE names, and libgit2, where the features ask for them.

use std::{env, path::PathBuf};

fn main() {
    println!("cargo:rerun-if-env-changed=SLUICEPOD_ARCHIVE");
    if env::var_os("CARGO_FEATURE_ARCHIVE").is_some() {
        let named = env::var_os("SLUICEPOD_ARCHIVE").expect("SLUICEPOD_ARCHIVE names the archive's folder");
        let top = PathBuf::from(env::var_os("CARGO_MANIFEST_DIR").unwrap()).join("../..");
        let folder = top.join(named);
        println!("cargo:rerun-if-changed={}", folder.join("libexports.a").display());
        println!("cargo:rustc-link-search=native={}", folder.display());
        println!("cargo:rustc-link-lib=static=exports");
    }
    if env::var_os("CARGO_FEATURE_LIBGIT2").is_some() {
        println!("cargo:rustc-link-lib=git2");
    }
}
