//! Where a message of a mebibyte without a divider ends in the second reading, beside a search for its LFs, one for each line: by
//! the C library's memchr, and by the crate's.

use std::hint::black_box;

use compare::{
    answers::LIMIT,
    archive::{self, ABOVE_DIVIDER, OK, RESULT_LEN},
};

use crate::{
    commits::{libc_lfs, memchr_lfs},
    race::{race, Race},
};

/// The line that fills each message.
const LINES: &[(&str, &[u8])] = &[
    ("one line", b""),
    (
        "70-byte lines",
        b"abcdefghi abcdefghi abcdefghi abcdefghi abcdefghi abcdefghi abcdefghi\n",
    ),
    ("removed lines of a patch", b"-abcdefghi abcdefghi abcdefghi abcde\n"),
    ("lines of ----", b"----\n"),
    ("x lines", b"x\n"),
];

/// A message, and each search beside `message_end`.
pub fn rows() -> Vec<(&'static str, [Race; 2])> {
    LINES
        .iter()
        .map(|&(name, line)| {
            let mut message = line.repeat(LIMIT / line.len().max(1));
            message.resize(LIMIT, b'x');
            let ours = || end(black_box(&message));
            let races = [
                race(|| libc_lfs(black_box(&message)), ours),
                race(|| memchr_lfs(black_box(&message)), ours),
            ];
            (
                name,
                races.map(|race| race.unwrap_or_else(|| panic!("{name}: the two end elsewhere"))),
            )
        })
        .collect()
}

#[inline(never)]
fn end(message: &[u8]) -> u64 {
    let mut result = [0; RESULT_LEN];
    assert_eq!(archive::message_end(message, ABOVE_DIVIDER, &mut result), OK);
    result[1] as u64
}
