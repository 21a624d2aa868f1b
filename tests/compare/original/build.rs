//! Names the folder from which the three files of the original are compiled, and copies the text of its line rule.

use std::{env, fs, path::PathBuf};

fn main() {
    println!("cargo:rerun-if-env-changed=SLUICEPOD_ORIGINAL");
    println!("cargo:rustc-check-cfg=cfg(feature, values(\"serde\"))");

    let here = PathBuf::from(env::var_os("CARGO_MANIFEST_DIR").unwrap());
    let folder = match env::var_os("SLUICEPOD_ORIGINAL") {
        Some(named) => here.join("../../..").join(named),
        None => here,
    };
    let message = folder.join("src/commit/message");
    for name in ["mod.rs", "decode.rs", "body.rs"] {
        println!("cargo:rerun-if-changed={}", message.join(name).display());
    }
    let root = message
        .join("mod.rs")
        .canonicalize()
        .unwrap_or_else(|err| panic!("{}: {err}", message.join("mod.rs").display()));

    let module = format!("#[path = {root:?}]\npub mod message;\n");
    let out = PathBuf::from(env::var_os("OUT_DIR").unwrap()).join("message.rs");
    fs::write(out, module).unwrap();

    let body = fs::read_to_string(message.join("body.rs")).unwrap();
    let out = PathBuf::from(env::var_os("OUT_DIR").unwrap()).join("line.rs");
    fs::write(out, function(&body, "trim_line_ending")).unwrap();
}

/// The text of a function at a file's top level.
fn function<'a>(file: &'a str, name: &str) -> &'a str {
    let start = file
        .find(&format!("fn {name}("))
        .unwrap_or_else(|| panic!("there is no {name}"));
    let len = file[start..].find("\n}\n").expect("the function ends") + "\n}\n".len();
    &file[start..start + len]
}
