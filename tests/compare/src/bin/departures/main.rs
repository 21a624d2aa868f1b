//! Where the original, Git and Git's manual part ways.
//!
//!     departures            runs the original and Git on every row of the table, those of the divider in both readings; fails if
//!                           either answers otherwise
//!     departures smallest   looks in each row's space for a message with fewer pieces on which the two part
//!     departures classes [messages] [seed]   random messages: nothing parts the two but the classes of the table

mod classes;
mod smallest;
mod table;

use std::{env, io, process::ExitCode, time::Duration};

use compare::{
    answers::Trailer,
    divider,
    git::{printed, Git},
    original,
};
use table::{Claim, Question, ReadAs, Row, CLAIMS, ROWS};

/// The Git that the table was made with.
const TABLE_IS_OF: &str = "2.39.5";

fn main() -> ExitCode {
    let mut words = env::args().skip(1);
    let done = match words.next().as_deref() {
        None => rows_and_claims(),
        Some("smallest") => with_git(smallest::all),
        Some("classes") => {
            let mut number = |default| words.next().map_or(default, |word| word.parse().expect("a number"));
            let messages = number(200_000);
            let seed = number(1);
            with_git(|git| classes::run(git, messages, seed))
        }
        Some(other) => Err(io::Error::other(format!("no such command: {other}"))),
    };
    match done {
        Ok(failures) => ExitCode::from(u8::from(failures > 0)),
        Err(err) => {
            eprintln!("departures: {err}");
            ExitCode::FAILURE
        }
    }
}

/// Runs Git's side where Git is the one that the table is of, and says so where it is not.
fn with_git(run: impl FnOnce(&Git) -> io::Result<usize>) -> io::Result<usize> {
    let git = Git::new()?;
    match git.version() {
        Ok(version) if version == TABLE_IS_OF => run(&git),
        Ok(version) => {
            println!("departures: Git not run: it is {version}, the table is of {TABLE_IS_OF}");
            Ok(0)
        }
        Err(err) => {
            println!("departures: Git not run: {err}");
            Ok(0)
        }
    }
}

fn rows_and_claims() -> io::Result<usize> {
    let failures = CLAIMS.iter().filter(|claim| !holds(claim)).count()
        + ROWS.iter().filter(|row| !original_agrees(row)).count()
        + ROWS.iter().filter(|row| !second_agrees(row)).count()
        + with_git(|git| {
            let mut failures = 0;
            for row in ROWS {
                failures += usize::from(!git_agrees(git, row)?);
            }
            println!("departures: Git {TABLE_IS_OF} on {} rows", ROWS.len());
            Ok(failures)
        })?;
    println!(
        "departures: the original on {} rows, {} of them in both readings, and {} claims; {failures} not as in the table",
        ROWS.len(),
        ROWS.iter().filter(|row| row.second.is_some()).count(),
        CLAIMS.len()
    );
    Ok(failures)
}

/// The original's trailers, printed as Git prints them.
fn original_prints(message: &[u8], read_as: ReadAs) -> Vec<u8> {
    let trailers = match read_as {
        ReadAs::Message => original::message_trailers(message),
        ReadAs::Body => original::trailers(message),
    };
    printed(message, &trailers)
}

/// The row's message, and the same below a title: where the row's title is empty, nothing depends on that.
fn messages(row: &Row) -> Vec<Vec<u8>> {
    let mut messages = vec![row.message.to_vec()];
    if row.message.starts_with(b"\n\n") {
        messages.push([b"t", row.message].concat());
    }
    messages
}

fn original_agrees(row: &Row) -> bool {
    messages(row).iter().all(|message| {
        let seen = original_prints(message, row.read_as);
        agrees("the original", row, message, Some(&seen), Some(row.original))
    })
}

/// The second reading: the original on the message above its first divider.
fn second_agrees(row: &Row) -> bool {
    let Some(second) = row.second else { return true };
    messages(row).iter().all(|message| {
        let seen = original_prints(divider::above(message), row.read_as);
        agrees("the second reading", row, message, Some(&seen), Some(second))
    })
}

fn git_agrees(git: &Git, row: &Row) -> io::Result<bool> {
    let within = Duration::from_secs(if row.git.is_some() { 30 } else { 1 });
    for message in messages(row) {
        let seen = git.parse(&message, row.settings, within)?;
        if !agrees("Git", row, &message, seen.as_deref(), row.git) {
            return Ok(false);
        }
    }
    Ok(true)
}

fn agrees(who: &str, row: &Row, message: &[u8], seen: Option<&[u8]>, table: Option<&[u8]>) -> bool {
    let shown = |answer: Option<&[u8]>| match answer {
        Some(answer) => format!("`{}`", answer.escape_ascii()),
        None => "does not end".to_owned(),
    };
    if seen != table {
        println!("class {}, {}: `{}`", row.class, row.what, message.escape_ascii());
        println!("  {who}: {}", shown(seen));
        println!("  table: {}", shown(table));
    }
    seen == table
}

fn holds(claim: &Claim) -> bool {
    let seen = answer(claim.question, claim.input);
    if seen != claim.answer {
        println!("{}: `{}`", claim.what, claim.input.escape_ascii());
        println!("  the original: {seen}");
        println!("  table: {}", claim.answer);
    }
    seen == claim.answer
}

fn answer(question: Question, input: &[u8]) -> String {
    let quoted = |bytes: &[u8]| format!("`{}`", bytes.escape_ascii());
    let place = |place: Option<usize>| place.map_or("none".to_owned(), |place| place.to_string());
    let tokens = |trailers: &[Trailer]| {
        let tokens: Vec<String> = trailers
            .iter()
            .map(|trailer| trailer.token.of(input).escape_ascii().to_string())
            .collect();
        tokens.join(" ")
    };
    match question {
        Question::Summaries => {
            let reading = original::read(input);
            format!(
                "{} {}",
                quoted(reading.summary.bytes(input)),
                quoted(reading.message_summary.bytes(input))
            )
        }
        Question::Summary => quoted(original::summary(input).bytes(input)),
        Question::SummaryPlace => place(original::summary_place(input)),
        Question::ValuePlace => place(original::first_value_place(input)),
        Question::StartAndTokens => {
            format!(
                "{} {}",
                original::block_start(input),
                tokens(&original::trailers(input))
            )
        }
        Question::MessageTokens => tokens(&original::message_trailers(input)),
    }
}
