//! The calls that lend a buffer, beside those that make room: steps, lookup and summaries; a buffer that is just long enough, one
//! that is a byte too short, and the bytes behind what is written.

use std::fs;

use sluicepod::{
    find_trailer, message_summary, message_summary_into, message_trailers, next_trailer, summary_into, BodyRef, Cursor,
    MessageRef, Place, Record, Refusal, Step, TrailerRef, LIMIT,
};

/// What stands in a buffer before a call.
const KEPT: u8 = b'.';

/// The answer of a call with as much room as it needs, and the buffer: with a byte less it must refuse, and nothing may be
/// written; with more, all behind must be kept.
fn lent<T: PartialEq + std::fmt::Debug>(call: impl Fn(&mut [u8]) -> Result<T, Refusal>) -> (T, Vec<u8>) {
    let needed = match call(&mut []) {
        Err(Refusal::NoRoom { needed }) => needed,
        answer => return (answer.unwrap(), Vec::new()),
    };
    let mut out = vec![KEPT; needed + 2];
    assert_eq!(call(&mut out[..needed - 1]), Err(Refusal::NoRoom { needed }));
    assert!(out.iter().all(|&byte| byte == KEPT));
    let answer = call(&mut out[..needed]).unwrap();
    assert_eq!(out[needed..], [KEPT; 2]);
    assert_eq!(call(&mut out).as_ref(), Ok(&answer));
    assert_eq!(out[needed..], [KEPT; 2]);
    out.truncate(needed);
    (answer, out)
}

/// Holds a record to a trailer.
fn hold(input: &[u8], (record, out): (Record, Vec<u8>), trailer: TrailerRef<'_>) {
    assert_eq!(record.token_bytes(input), trailer.token);
    assert_eq!(record.value_bytes(input, &out), &trailer.value[..]);
    assert_eq!((record.ending, record.line), (trailer.ending, trailer.line));
    if let Place::Buffer(part) = record.value {
        assert_eq!(part, 0..out.len());
    }
}

/// Holds the steps from a cursor to a walk.
fn hold_steps<'a>(input: &[u8], from: Cursor, walk: impl Iterator<Item = TrailerRef<'a>>) {
    let mut cursor = from;
    let step = |cursor| lent(|out| next_trailer(input, cursor, out));
    for trailer in walk {
        let (Step { record, next }, out) = step(cursor);
        hold(input, (record.unwrap(), out), trailer);
        assert_eq!(Cursor::of_place(input, next.at), Ok(next));
        cursor = next;
    }
    let end = Cursor::of_place(input, input.len()).unwrap();
    let over = Step {
        record: None,
        next: end,
    };
    assert_eq!(step(cursor), (over.clone(), Vec::new()));
    assert_eq!(step(end), (over, Vec::new()));
}

/// Holds all calls about a message.
fn hold_message(message: &[u8]) {
    hold_steps(
        message,
        Cursor::of_message(message).unwrap(),
        message_trailers(message).unwrap(),
    );
    let (place, out) = lent(|out| message_summary_into(message, out));
    assert_eq!(place.bytes(message, &out), &message_summary(message).unwrap()[..]);
    let parts = MessageRef::from_bytes(message).unwrap();
    let (place, out) = lent(|out| summary_into(parts.title, out));
    assert_eq!(place.bytes(parts.title, &out), &parts.summary()[..]);
    let Some(body) = parts.body else {
        return;
    };
    let read = BodyRef::from_bytes(body).unwrap();
    hold_steps(body, read.cursor(), read.trailers());
    for block in read.message_blocks() {
        let (input, cursor) = block.walk();
        hold_steps(input, cursor, block.trailers());
    }
    for name in [&b"vehicle"[..], b"RECORDS", b"Signed-off-by", b""] {
        let (found, out) = lent(|out| find_trailer(body, name, out));
        assert_eq!(found.is_some(), read.find(name).is_some());
        if let Some(record) = found {
            hold(body, (record, out), read.find(name).unwrap());
        }
    }
}

#[test]
fn the_journal() {
    for entry in fs::read_dir("../crates/journal/data").unwrap() {
        hold_message(&fs::read(entry.unwrap().path()).unwrap());
    }
}

#[test]
fn others() {
    hold_message(b"");
    hold_message(b"t\r\n\r\nA: b\r\n c\r\nVehicle:\n \x0b\nSigned-off-by: d\nx\nRecords: 1\r");
    let long = [&b"t\n\nRecords: "[..], &b"a line\n ".repeat(1_000)].concat();
    hold_message(&long);
}

/// As many trailers and bytes as are listed at once, fewer, and more.
#[test]
fn walks_of_every_length() {
    for count in 0..30 {
        let plain = b"Signed-off-by: a\nb: c\n".repeat(count);
        hold_message(&[b"t\n\n", &plain[..]].concat());
        let folded = b"a: twenty-three bytes,\n b\nAcked-by: c\n".repeat(count);
        hold_message(&[b"t\n\nx\n\n", &folded[..]].concat());
    }
    for len in 280..360 {
        hold_message(&[b"t\n\nA: ", &vec![b'b'; len][..], b"\n c\nD: e\n"].concat());
    }
}

/// What is left of a walk, through a filter, copied, and shown.
#[test]
fn what_is_left() {
    for count in [1, 5, 6, 7, 20] {
        let message = [&b"t\n\n"[..], &b"Signed-off-by: a\nB: c\n d\n".repeat(count)].concat();
        let all: Vec<_> = message_trailers(&message).unwrap().collect();
        let mut walk = message_trailers(&message).unwrap();
        for given in 0..=all.len() {
            let left = &all[given..];
            assert!(walk.clone().eq(left.iter().cloned()));
            let signed = left.iter().filter(|trailer| trailer.is_signed_off_by());
            assert!(walk.clone().signed_off_by().eq(signed.cloned()));
            assert!(format!("{walk:?}").starts_with("Trailers { input: ["));
            assert_eq!(walk.next().as_ref(), left.first());
        }
        assert_eq!(walk.next(), None);
    }
}

#[test]
fn refusals_in_their_order() {
    let at = |at, line| Cursor { at, line };
    let long = vec![b'x'; LIMIT + 1];
    assert_eq!(next_trailer(&long, at(LIMIT + 2, 0), &mut []), Err(Refusal::TooLong));
    assert_eq!(find_trailer(&long, b"A", &mut []), Err(Refusal::TooLong));
    assert_eq!(find_trailer(b"A: b", &long, &mut []), Err(Refusal::TooLong));
    assert_eq!(summary_into(&long, &mut []), Err(Refusal::TooLong));
    assert_eq!(message_summary_into(&long, &mut []), Err(Refusal::TooLong));
    assert_eq!(Cursor::of_message(&long), Err(Refusal::TooLong));
    assert_eq!(Cursor::of_place(&long, LIMIT + 2), Err(Refusal::TooLong));
    assert_eq!(Cursor::of_place(b"x", 2), Err(Refusal::BadPlace));
    for cursor in [at(8, 1), at(0, 0), at(0, 2), at(7, 9), at(usize::MAX, usize::MAX)] {
        assert_eq!(next_trailer(b"A: b\n c", cursor, &mut []), Err(Refusal::BadPlace));
    }
    assert_eq!(
        next_trailer(b"A: b\n c", Cursor::FRONT, &mut []),
        Err(Refusal::NoRoom { needed: 3 })
    );
}
