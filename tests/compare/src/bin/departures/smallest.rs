//! Looks for smaller messages than those of the table.

use std::io;

use compare::{divider, git::Git, original};

use crate::{
    original_prints,
    table::{Row, Space, ROWS, SECOND},
};

/// For each row with a space: all its messages with fewer pieces are answered alike, and the row's own, one of the
/// next size, is not. The same for what the table claims of summaries.
pub fn all(git: &Git) -> io::Result<usize> {
    let mut failures = 0;
    for row in ROWS {
        let Some(space) = &row.among else { continue };
        if row.git.is_none() {
            let tried = ends_on_fewer(git, row, space)?;
            println!(
                "ok class {}, {}: Git ends on {tried} messages of fewer pieces",
                row.class, row.what
            );
            continue;
        }
        let ours = |message: &[u8]| original_prints(message, row.read_as);
        let (pieces, parted, tried) = first_level(git, row, space, ours)?;
        let known = parted.iter().any(|message| message == row.message);
        if !known {
            failures += 1;
        }
        println!(
            "{} class {}, {}: {tried} messages, first parted at {pieces} pieces: {}",
            if known { "ok" } else { "NOT SMALLEST" },
            row.class,
            row.what,
            shown(&parted)
        );
    }
    for (what, space) in SECOND {
        failures += second_reading(git, what, space)?;
    }
    failures += summaries();
    Ok(failures)
}

/// The same for a row on which the second reading and Git part.
fn second_reading(git: &Git, what: &str, space: &Space) -> io::Result<usize> {
    let row = ROWS
        .iter()
        .find(|row| row.what == what && row.second.is_some() && row.second != row.git)
        .unwrap_or_else(|| panic!("no row on which the second reading and Git part: {what}"));
    let ours = |message: &[u8]| original_prints(divider::above(message), row.read_as);
    let (pieces, parted, tried) = first_level(git, row, space, ours)?;
    let known = parted.iter().any(|message| message == row.message);
    println!(
        "{} second reading, {what}: {tried} messages, first parted at {pieces} pieces: {}",
        if known { "ok" } else { "NOT SMALLEST" },
        shown(&parted)
    );
    Ok(usize::from(!known))
}

fn shown(messages: &[Vec<u8>]) -> String {
    let some: Vec<String> = messages
        .iter()
        .take(4)
        .map(|message| format!("`{}`", message.escape_ascii()))
        .collect();
    let more = if messages.len() > 4 { " .." } else { "" };
    format!("{}{more}", some.join(" "))
}

/// The messages with the fewest pieces on which the two part, that number, and how many messages were tried.
fn first_level(
    git: &Git,
    row: &Row,
    space: &Space,
    reads: impl Fn(&[u8]) -> Vec<u8>,
) -> io::Result<(usize, Vec<Vec<u8>>, usize)> {
    let mut level = vec![space.front.to_vec()];
    let mut tried = 0;
    for pieces in 1.. {
        level = longer(&level, space.pieces);
        tried += level.len();
        let mut parted = Vec::new();
        for (message, answer) in level.iter().zip(git.parse_all(&level, row.settings)?) {
            let ours = reads(message);
            if seen(space, &ours) != seen(space, &answer) && counts(git, row, space, message, &answer)? {
                parted.push(message.clone());
            }
        }
        if !parted.is_empty() || tried > 200_000 {
            return Ok((pieces, parted, tried));
        }
    }
    unreachable!()
}

/// Git ends on each message with fewer pieces than the row's; how many there are.
fn ends_on_fewer(git: &Git, row: &Row, space: &Space) -> io::Result<usize> {
    let mut level = vec![space.front.to_vec()];
    let mut tried = 0;
    while !level.iter().any(|message| message == row.message) {
        git.parse_all(&level, row.settings)?;
        tried += level.len();
        level = longer(&level, space.pieces);
    }
    Ok(tried)
}

fn longer(level: &[Vec<u8>], pieces: &[&[u8]]) -> Vec<Vec<u8>> {
    level
        .iter()
        .flat_map(|message| pieces.iter().map(move |piece| [&message[..], piece].concat()))
        .collect()
}

/// What counts of an answer: all of it, or the tokens.
fn seen(space: &Space, answer: &[u8]) -> Vec<Vec<u8>> {
    answer
        .split(|&byte| byte == b'\n')
        .map(|line| {
            if space.tokens_only {
                line.split(|&byte| byte == b':').next().unwrap_or(line).to_vec()
            } else {
                line.to_vec()
            }
        })
        .collect()
}

fn counts(git: &Git, row: &Row, space: &Space, message: &[u8], answer: &[u8]) -> io::Result<bool> {
    let Some((piece, stand_in)) = space.unlike else {
        return Ok(true);
    };
    let mut other = Vec::new();
    let mut rest = message;
    while !rest.is_empty() {
        if let Some(behind) = rest.strip_prefix(piece) {
            other.extend_from_slice(stand_in);
            rest = behind;
        } else {
            other.push(rest[0]);
            rest = &rest[1..];
        }
    }
    Ok(git.parse_all(&[other], row.settings)?[0] != answer)
}

/// A smallest message whose two summaries differ, the same where neither is empty, and a smallest title of several
/// lines whose summary has two spaces side by side.
fn summaries() -> usize {
    let pieces: &[&[u8]] = &[b"a", b"b", b"\n", b"\r", b" ", b"\t", b"\x0b", b"\x0c"];
    let differ = |message: &[u8]| {
        let reading = original::read(message);
        reading.summary.bytes(message) != reading.message_summary.bytes(message)
    };
    let two_spaces = |title: &[u8]| {
        let summary = original::summary(title);
        title.contains(&b'\n') && summary.bytes(title).windows(2).any(|two| two == b"  ")
    };
    let neither_empty = |message: &[u8]| {
        let (title_end, _) = original::title_and_body(message);
        let title = &message[..title_end];
        !original::summary(title).bytes(title).is_empty() && differ(message)
    };
    type Wanted<'a> = (&'a str, &'a dyn Fn(&[u8]) -> bool, &'a [u8]);
    let wanted: [Wanted; 3] = [
        ("the two summaries", &differ, b"\n\na"),
        ("the two summaries, neither empty", &neither_empty, b"a\n\r\nb"),
        ("blanks after an LF", &two_spaces, b"a\n b"),
    ];
    let mut failures = 0;
    for (what, parts, message) in wanted {
        let mut level = vec![Vec::new()];
        let parted: Vec<Vec<u8>> = loop {
            level = longer(&level, pieces);
            let parted: Vec<Vec<u8>> = level.iter().filter(|message| parts(message)).cloned().collect();
            if !parted.is_empty() {
                break parted;
            }
        };
        let known = parted.iter().any(|one| one == message);
        failures += usize::from(!known);
        println!(
            "{} {what}: first parted at {} bytes: {}",
            if known { "ok" } else { "NOT SMALLEST" },
            parted[0].len(),
            shown(&parted)
        );
    }
    failures
}
