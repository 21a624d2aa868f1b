//! Commit objects with headers of a mebibyte, beside a search for the header's LFs, one for each line, up to the empty line: by
//! the C library's memchr, and by the crate's.

use std::hint::black_box;

use compare::{answers::LIMIT, commits};
use original::bstr::ByteSlice;

use crate::{
    libc,
    race::{race, Race},
};

/// A call on a header, and how it did beside a search.
pub struct Row {
    pub header: &'static str,
    pub call: &'static str,
    pub race: Race,
}

/// The calls and what each is beside, in order.
pub const CALLS: &[&str] = &[
    "message",
    "last line",
    "message, beside the crate's",
    "last line, beside the crate's",
];

/// The first line of what fills each header, and the line that it goes on with.
const HEADERS: &[(&str, &[u8], &[u8])] = &[
    (
        "a signature's lines",
        b"gpgsig -----BEGIN PGP SIGNATURE-----\n",
        b" iQEzBAABCAAdFiEEu7bus7nightABCDEFGHIJKLMNOPQRSTUVWXYZabcdefghijk\n",
    ),
    ("3-byte continued lines", b"x a\n", b" a\n"),
    ("4-byte lines", b"x a\n", b"x a\n"),
    (
        "65-byte continued lines",
        b"x a\n",
        b" abcdefghi abcdefghi abcdefghi abcdefghi abcdefghi abcdefghi abc\n",
    ),
    (
        "65-byte lines",
        b"x a\n",
        b"x abcdefghi abcdefghi abcdefghi abcdefghi abcdefghi abcdefghi ab\n",
    ),
    (
        "70-byte lines",
        b"x a\n",
        b"x abcdefghi abcdefghi abcdefghi abcdefghi abcdefghi abcdefghi abcdefg\n",
    ),
];

const FRONT: &[u8] = b"tree 0123456789abcdef0123456789abcdef01234567\n";
const PARENT: &[u8] = b"parent 0123456789abcdef0123456789abcdef01234567\n";
const PEOPLE: &[u8] = b"author a <b> 0 +0000\ncommitter a <b> 0 +0000\n";

pub fn rows() -> Vec<Row> {
    let mut contents: Vec<(&str, Vec<u8>)> = HEADERS
        .iter()
        .map(|&(name, first, next)| (name, filled(&[FRONT, PEOPLE, first].concat(), next, b"\n")))
        .collect();
    contents.push(("parents", filled(FRONT, PARENT, &[PEOPLE, b"\n"].concat())));
    let mut rows = Vec::new();
    for (header, content) in &contents {
        let last = commits::lines_count(content).expect("a good header") - 1;
        let mut add = |call, race: Option<Race>| {
            rows.push(Row {
                header,
                call,
                race: race.unwrap_or_else(|| panic!("{header}: the two find another message")),
            });
        };
        let lines = || libc_lfs(black_box(content));
        let words = || memchr_lfs(black_box(content));
        let ours = || message(black_box(content));
        let ours_last = || last_line(black_box(content), last);
        for (&call, race) in CALLS.iter().zip([
            race(lines, ours),
            race(lines, ours_last),
            race(words, ours),
            race(words, ours_last),
        ]) {
            add(call, race);
        }
    }
    rows
}

/// As many bytes as the limit lets through, or a few less.
fn filled(front: &[u8], unit: &[u8], end: &[u8]) -> Vec<u8> {
    let mut content = front.to_vec();
    while content.len() + unit.len() + end.len() <= LIMIT {
        content.extend_from_slice(unit);
    }
    content.extend_from_slice(end);
    content
}

/// Where the message starts, by a search for each line's LF.
fn by_lines(content: &[u8], find: impl Fn(&[u8]) -> Option<usize>) -> u64 {
    let mut at = 0;
    while let Some(len) = find(&content[at..]) {
        if len == 0 {
            return at as u64 + 1;
        }
        at += len + 1;
    }
    content.len() as u64
}

/// The same, by the C library's.
#[inline(never)]
pub fn libc_lfs(content: &[u8]) -> u64 {
    by_lines(content, |rest| libc::find(rest, b'\n'))
}

/// The same, by the crate memchr's.
#[inline(never)]
pub fn memchr_lfs(content: &[u8]) -> u64 {
    by_lines(content, |rest| rest.find_byte(b'\n'))
}

#[inline(never)]
fn message(content: &[u8]) -> u64 {
    commits::message(content).map_or(0, |part| part.start as u64)
}

/// Where the message starts, by where the last line's content ends.
#[inline(never)]
fn last_line(content: &[u8], number: usize) -> u64 {
    match commits::line(content, number) {
        Ok(Some(line)) => line.content.end as u64 + 2,
        _ => 0,
    }
}
