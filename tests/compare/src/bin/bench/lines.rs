//! Numbers from the top: the cursor of the end of a mebibyte, whose LFs are all counted, beside libc's memchr passing over the same
//! text, which looks for a byte that is not there.

use std::hint::black_box;

use compare::{
    answers::{Cursor, LIMIT},
    archive::{self, OK, RESULT_LEN},
};

use crate::{
    libc,
    race::{race, Race},
};

/// What the text is made of.
const LINES: &[(&str, &[u8])] = &[
    (
        "70-byte lines",
        b"abcdefghi abcdefghi abcdefghi abcdefghi abcdefghi abcdefghi abcdefghi\n",
    ),
    ("A: b lines", b"A: b\n"),
    ("blank lines", b"\n"),
    ("one line", b"x"),
];

/// A text, and how the count did beside the pass.
pub fn rows() -> Vec<(&'static str, Race)> {
    LINES
        .iter()
        .map(|&(name, line)| {
            let text: Vec<u8> = line.iter().copied().cycle().take(LIMIT).collect();
            let number = Cursor::of(&text, LIMIT).line;
            let race = race(|| passed(black_box(&text)), || counted(black_box(&text), number));
            (name, race.expect("both come to the end"))
        })
        .collect()
}

/// How far memchr comes.
fn passed(text: &[u8]) -> u64 {
    assert!(libc::find(text, 0).is_none());
    text.len() as u64
}

#[inline(never)]
fn counted(text: &[u8], number: usize) -> u64 {
    let mut result = [0; RESULT_LEN];
    assert_eq!(archive::cursor_at(text, text.len(), &mut result), OK);
    assert_eq!(result[2], number);
    result[1] as u64
}
