//! The port's reading of commit objects beside Git's.
//!
//! Repositories are made with merges, signed commits, mergetags, encodings and empty messages, for SHA-1 and SHA-256; every commit
//! of theirs and of this repository must be read as Git reads it. Then come the objects of docs/DIFFERENCES.md, made by hand, of
//! which the two need not think alike: each side must answer as that page says.

mod made;
mod reading;
mod repository;
mod table;

use std::{io, path::Path, process::ExitCode};

use crate::repository::Repository;

fn main() -> ExitCode {
    match run() {
        Ok(0) => ExitCode::SUCCESS,
        Ok(failures) => {
            println!("commits: {failures} failures");
            ExitCode::FAILURE
        }
        Err(error) => {
            println!("commits: not run: {error}");
            ExitCode::FAILURE
        }
    }
}

fn run() -> io::Result<usize> {
    let mut failures = 0;
    for format in ["sha1", "sha256"] {
        let repository = Repository::new(format)?;
        made::fill(&repository)?;
        failures += reading::compare(&repository, format)?;
        failures += made::compare_signatures(&repository)?;
        if format == "sha1" {
            failures += table::run(&repository)?;
        }
    }
    let top = Path::new(env!("CARGO_MANIFEST_DIR")).join("../..");
    if top.join(".git").exists() {
        failures += reading::compare(&Repository::at(&top), "this repository")?;
    } else {
        println!("commits: this folder is no repository");
    }
    Ok(failures)
}
