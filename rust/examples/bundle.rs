//! Writes a bundle of a repository's messages to standard output: those that `git log` lists, in its order.
//!
//!     cargo run --example bundle -- [WORDS FOR GIT LOG..] > night.bundle
//!
//! For one night of the repository in ../depot, and its report by the proved program:
//!
//!     cargo run --example bundle -- -C ../depot --since "yesterday 18:00" --until "today 6:00" > night.bundle
//!     ../crates/report/out/report < night.bundle
//!
//! `-C FOLDER` may stand first, and names the repository.

use std::{
    env,
    error::Error,
    ffi::OsString,
    io::{self, Write},
    ops::Range,
    process::{exit, Command, Stdio},
};

use sluicepod::write_bundle;

fn main() {
    let words: Vec<OsString> = env::args_os().skip(1).collect();
    let written = bundle(&words).and_then(|bytes| Ok(io::stdout().write_all(&bytes)?));
    if let Err(why) = written {
        eprintln!("bundle: {}", why);
        exit(1);
    }
}

/// The bundle of the messages that `git log` lists with these words.
pub fn bundle(words: &[OsString]) -> Result<Vec<u8>, Box<dyn Error>> {
    let listed = messages(words)?;
    Ok(write_bundle(&listed, &ranges(&listed))?)
}

/// The messages as Git gives them, each with a NUL behind it, which no message holds.
fn messages(words: &[OsString]) -> Result<Vec<u8>, Box<dyn Error>> {
    let (place, words) = match words {
        [c, folder, rest @ ..] if c == "-C" => (vec![c, folder], rest),
        _ => (vec![], words),
    };
    let git = Command::new("git")
        .args(place)
        .args(["log", "-z", "--format=tformat:%B"])
        .args(words)
        .stderr(Stdio::inherit())
        .output()?;
    if !git.status.success() {
        return Err("git log failed".into());
    }
    Ok(git.stdout)
}

/// Where each message stands: up to its NUL.
fn ranges(listed: &[u8]) -> Vec<Range<usize>> {
    let mut start = 0;
    let mut ranges = Vec::new();
    for (end, _) in listed.iter().enumerate().filter(|(_, byte)| **byte == 0) {
        ranges.push(start..end);
        start = end + 1;
    }
    ranges
}
