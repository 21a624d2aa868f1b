//! A trailer added to many messages by the port.
//!
//!     additions [messages] [seed]
//!
//! Each new message must be the one that document 02's sentences give over the original's reading, and read again by the original
//! its trailers must be the old ones, at their places, and then the new one. Beside Git the new messages of well-behaved messages
//! must be Git's to the byte; of those of docs/DIFFERENCES.md each side must answer as that page says.

mod beside_git;
mod table;

use std::{cell::Cell, env, io, process::ExitCode};

use compare::{
    additions::{by_hand, ours, read, Added},
    git::Git,
    inputs::Plan,
    search,
};

/// The Git that the page is of.
const GIT: &str = "2.39.5";

/// Tokens and values, good and bad; which pair a message is asked with goes by its bytes.
const TOKENS: &[&[u8]] = &[
    b"A",
    b"Offload-state",
    b"signed-off-by",
    b"0",
    b"-",
    b"Acked-By",
    b"Z9",
    b"",
    b"A b",
    b"A:",
    b"\xc3\xa4",
    b"A_",
];
const VALUES: &[&[u8]] = &[
    b"v",
    b"complete",
    b"",
    b"a  b",
    b":",
    b"A: b",
    b"v\rw",
    b"\xff",
    b"a\xc2\xa0b",
    b"---",
    b"#",
    b" v",
    b"v\r",
    b"v\nw",
    b"\xe3\x80\x80v",
    b"v\x0c",
];

fn main() -> ExitCode {
    let mut words = env::args().skip(1);
    let mut number = |default| words.next().map_or(default, |word| word.parse().expect("a number"));
    let plan = Plan {
        messages: number(20_000) as usize,
        seed: number(1),
        deeper: 0,
        long: true,
    };
    match run(&plan) {
        Ok(0) => ExitCode::SUCCESS,
        Ok(failures) => {
            println!("additions: {failures} failures");
            ExitCode::FAILURE
        }
        Err(error) => {
            println!("additions: not run: {error}");
            ExitCode::FAILURE
        }
    }
}

fn run(plan: &Plan) -> io::Result<usize> {
    let mut failures = usize::from(!by_the_sentences(plan)) + table::run_ours();
    let git = Git::new()?;
    match git.version() {
        Ok(version) if version == GIT => {
            failures += beside_git::run(&git, plan.seed)?;
            failures += table::run_git(&git)?;
        }
        Ok(version) => println!("additions: Git not run: it is {version}, the page is of {GIT}"),
        Err(error) => println!("additions: Git not run: {error}"),
    }
    Ok(failures)
}

/// A token and a value for a message; most are good.
fn asked(message: &[u8]) -> (&'static [u8], &'static [u8]) {
    let sum = message.iter().fold(17usize, |sum, &byte| {
        sum.wrapping_mul(31).wrapping_add(usize::from(byte))
    });
    let pick = |from: &[&'static [u8]], good: usize, by: usize| match by % 8 {
        0 => from[by / 8 % from.len()],
        _ => from[by / 8 % good],
    };
    (pick(TOKENS, 7, sum), pick(VALUES, 11, sum / 97))
}

/// A new message and what is read of it.
type Answer = (Added, Option<Vec<(usize, Vec<u8>, Vec<u8>)>>);

fn by_the_sentences(plan: &Plan) -> bool {
    let (written, trailers) = (Cell::new(0), Cell::new(0));
    let wanted = |message: &[u8]| -> Answer {
        let (token, value) = asked(message);
        let new = by_hand(message, token, value);
        let told = new.as_ref().ok().map(|new| {
            let mut told = read(message);
            let line = [token, b": ", value].concat();
            let place = new.len() - line.len() - if new.ends_with(b"\r\n") { 2 } else { 1 };
            told.push((place, token.to_vec(), value.to_vec()));
            told
        });
        (new, told)
    };
    let given = |message: &[u8]| -> Answer {
        let (token, value) = asked(message);
        let new = ours(message, token, value);
        let told = new.as_ref().ok().map(|new| {
            let told = read(new);
            written.set(written.get() + 1);
            trailers.set(trailers.get() + told.len());
            told
        });
        (new, told)
    };
    let outcome = search::compare(plan, wanted, given);
    println!(
        "additions: {} messages, {} new messages written and read again, with {} trailers",
        outcome.inputs(),
        written.get(),
        trailers.get()
    );
    if let Some(found) = &outcome.found {
        let (token, value) = asked(&found.shrunk);
        println!(
            "additions: {}: `{}` with `{}: {}`\n  by the sentences {:?}\n  by the port      {:?}",
            found.kind,
            found.shrunk.escape_ascii(),
            token.escape_ascii(),
            value.escape_ascii(),
            wanted(&found.shrunk),
            given(&found.shrunk)
        );
    }
    outcome.found.is_none()
}
