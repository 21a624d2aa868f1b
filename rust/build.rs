//! Links libexports.a, from the folder that SLUICEPOD_ARCHIVE names; a relative name counts from the repository's top.
//! Without it, from where tests/archive makes it.

use std::{env, path::Path, process::exit};

fn main() {
    let here = env::var_os("CARGO_MANIFEST_DIR").expect("cargo sets it");
    let top = Path::new(&here).parent().expect("the crate stands in the repository");
    let folder = top.join(env::var_os("SLUICEPOD_ARCHIVE").unwrap_or_else(|| made().into()));
    let archive = folder.join("libexports.a");
    println!("cargo:rerun-if-env-changed=SLUICEPOD_ARCHIVE");
    println!("cargo:rerun-if-changed={}", archive.display());
    if !archive.is_file() {
        eprintln!("sluicepod: there is no {}.", archive.display());
        eprintln!("Make it with tests/archive, or name the folder that holds it in SLUICEPOD_ARCHIVE.");
        exit(1);
    }
    println!("cargo:rustc-link-search=native={}", folder.display());
    println!("cargo:rustc-link-lib=static=exports");
}

/// The folder of the archive for the processor that is compiled for.
fn made() -> &'static str {
    match env::var("CARGO_CFG_TARGET_ARCH").as_deref() {
        Ok("aarch64") => "target/arm",
        _ => "crates/exports/out",
    }
}
