//! The mailbox call, which the original does not have: a mebibyte of comments, of quotes and of words, and half of it, so that it
//! is seen to be linear.

use compare::{
    answers::LIMIT,
    archive::{self, OK, RESULT_LEN},
};

use crate::race::alone;

/// What is repeated before `<a@b>`.
const UNITS: &[(&str, &[u8])] = &[
    ("comments", b"(x)"),
    ("comments eight deep", b"(((((((())))))))"),
    ("quotes", b"\"x\""),
    ("words", b"word "),
];

/// A name, the nanoseconds of half a mebibyte, and those of a whole one.
pub fn rows() -> Vec<(String, f64, f64)> {
    let mut rows: Vec<_> = UNITS
        .iter()
        .map(|&(name, unit)| (format!("1 MiB of {name}"), timed(unit, LIMIT / 2), timed(unit, LIMIT)))
        .collect();
    for (name, open, close) in [("one comment", b"(", b")"), ("one quote", b"\"", b"\"")] {
        let time = |len: usize| {
            let value = [&open[..], &vec![b'x'; len - 7], &close[..], b"<a@b>"].concat();
            alone(|| read(&value))
        };
        rows.push((format!("1 MiB in {name}"), time(LIMIT / 2), time(LIMIT)));
    }
    rows
}

fn timed(unit: &[u8], len: usize) -> f64 {
    let mut value = unit.repeat((len - 5) / unit.len());
    value.extend_from_slice(b"<a@b>");
    alone(|| read(&value))
}

#[inline(never)]
fn read(value: &[u8]) -> u64 {
    let mut result = [0; RESULT_LEN];
    assert_eq!(archive::mailbox(value, &mut result), OK);
    assert_eq!(&value[result[3]..result[4]], b"a@b");
    result[2] as u64
}
