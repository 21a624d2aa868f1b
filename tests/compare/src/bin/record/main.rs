//! Writes crates/replay/data/list: messages, each with the original's answers; and data/changed: small lists in which one
//! byte of an answer is changed. crates/replay/README.md says how they are laid out; the program of that crate holds the
//! port's answers to them.
//!
//!     record               writes the lists, and what the program must print of them
//!     record show NUMBER   prints a message of it, counted from 0, and the original's answers

mod changed;
mod layout;
mod messages;

use std::{env, fs, io, path::PathBuf, process::ExitCode};

use compare::original;

/// The room that the program has for the list, and for an answer that is written.
const LIST_ROOM: usize = 393_216;
const ANSWER_ROOM: usize = 4_096;

fn main() -> ExitCode {
    let words: Vec<String> = env::args().skip(1).collect();
    let done = match &words.iter().map(String::as_str).collect::<Vec<_>>()[..] {
        [] => write(),
        ["show", number] => show(number),
        _ => Err(io::Error::other("no such command")),
    };
    match done {
        Ok(()) => ExitCode::SUCCESS,
        Err(err) => {
            eprintln!("record: {err}");
            ExitCode::FAILURE
        }
    }
}

fn write() -> io::Result<()> {
    let messages = messages::all();
    let list = layout::list(&messages);
    assert!(list.len() < LIST_ROOM, "the program's list_buffer is too small");
    assert!(messages.iter().all(|message| message.len() <= ANSWER_ROOM));
    let replay = PathBuf::from(env!("CARGO_MANIFEST_DIR")).join("../../crates/replay");
    fs::create_dir_all(replay.join("data"))?;
    fs::write(replay.join("data/list"), &list)?;
    let (changed, printed) = changed::lists();
    fs::write(replay.join("data/changed"), &changed)?;
    fs::write(replay.join("stdout"), format!("{} messages agree\n{printed}", messages.len()))?;
    println!("record: {} messages, {} bytes", messages.len(), list.len());
    Ok(())
}

fn show(number: &str) -> io::Result<()> {
    let messages = messages::all();
    let message = number.parse().ok().and_then(|number: usize| messages.get(number));
    let message = message.ok_or_else(|| io::Error::other("no such message"))?;
    println!("`{}`\n{:#?}", message.escape_ascii(), original::read(message));
    Ok(())
}
