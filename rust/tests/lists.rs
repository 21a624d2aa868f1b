//! All trailers at once: document 02's examples of K1 by their numbers, tables and buffers that are just long enough and one
//! entry or byte too short, and the listing beside the single steps.

mod lent;

use std::ops::Range;

use sluicepod::{
    above_divider, list_from, list_trailers, BodyRef, Cursor, Ending, Listed, Place, Reading, Record, Refusal, LIMIT,
};

use lent::{generated, hold, journal, lent, stepped};

fn at(at: usize, line: usize) -> Cursor {
    Cursor { at, line }
}

fn record(token: Range<usize>, value: Place, ending: Ending, line: usize) -> Record {
    Record {
        token,
        value,
        ending,
        line,
    }
}

const THREE: &[u8] = b"A: b\nB: c\n d\nC:\n e\n f";

#[test]
fn examples_k1() {
    let three = |entries, room| lent(entries, room, |table, out| list_from(THREE, Cursor::FRONT, table, out));
    let (answer, table, out) = three(4, 8); // K1.1
    assert_eq!(answer, Ok(Listed { records: 3, bytes: 6 }));
    let expected = [
        record(0..1, Place::Message(3..4), Ending::Lf, 1),
        record(5..6, Place::Buffer(0..3), Ending::Lf, 2),
        record(13..14, Place::Buffer(3..6), Ending::None, 4),
    ];
    assert_eq!((&table[..], &out[..]), (&expected[..], &b"c de f"[..]));

    assert_eq!(three(2, 5).0, Err(Refusal::ShortTable { records: 3, bytes: 6 })); // K1.2
    assert_eq!(three(3, 5).0, Err(Refusal::NoRoomForAll { records: 3, bytes: 6 })); // K1.3
    let past = lent(0, 0, |table, out| list_from(b"A: b\n", at(6, 1), table, out));
    assert_eq!(past.0, Err(Refusal::BadPlace)); // K1.4
    let end = lent(0, 0, |table, out| list_from(b"x", at(1, 1), table, out));
    assert_eq!(end.0, Ok(Listed { records: 0, bytes: 0 })); // K1.5
}

#[test]
fn example_k8_3() {
    let input = b"\nA: b\n c\n d\nB: e";
    let (answer, table, out) = lent(2, 5, |table, out| list_from(input, Cursor::FRONT, table, out));
    assert_eq!(answer, Ok(Listed { records: 2, bytes: 5 }));
    let expected = [
        record(1..2, Place::Buffer(0..5), Ending::Lf, 2),
        record(12..13, Place::Message(15..16), Ending::None, 5),
    ];
    assert_eq!((&table[..], &out[..]), (&expected[..], &b"b c d"[..]));
}

#[test]
fn refusals_in_their_order() {
    let listed = |input: &[u8], cursor, entries| {
        let call = |table: &mut [Record], out: &mut [u8]| list_from(input, cursor, table, out);
        lent(entries, 0, call).0
    };
    let long = vec![b'x'; LIMIT + 1];
    assert_eq!(listed(&long, at(LIMIT + 2, 0), 0), Err(Refusal::TooLong));
    assert_eq!(listed(&long[1..], at(LIMIT, 1), 0), Ok(Listed { records: 0, bytes: 0 }));
    let folded = b"A: b\n c";
    assert_eq!(listed(folded, at(8, 1), 0), Err(Refusal::BadPlace));
    assert_eq!(listed(folded, at(0, 0), 0), Err(Refusal::BadPlace));
    assert_eq!(listed(folded, at(0, 2), 0), Err(Refusal::BadPlace));
    let (records, bytes) = (1, 3);
    assert_eq!(listed(folded, at(0, 1), 0), Err(Refusal::ShortTable { records, bytes }));
    assert_eq!(
        listed(folded, at(0, 1), 1),
        Err(Refusal::NoRoomForAll { records, bytes })
    );
}

#[test]
fn numbers_and_words() {
    let (records, bytes) = (3, 6);
    let short = Refusal::ShortTable { records, bytes };
    let no_room = Refusal::NoRoomForAll { records, bytes };
    assert_eq!((short.number(), no_room.number()), (4, 3));
    let needed = "is too short: 3 records and 6 bytes are needed";
    assert_eq!(short.to_string(), format!("the table {needed}"));
    assert_eq!(no_room.to_string(), format!("the buffer {needed}"));
}

#[test]
fn a_value_that_unfolds_to_nothing_is_the_empty_part_at_the_used_length() {
    let input = b"A: b\n c\nD:\n \x0b\nE: f\n g";
    let (_, table, out) = lent(3, 9, |table, out| list_from(input, Cursor::FRONT, table, out));
    let values: Vec<_> = table.into_iter().map(|record| record.value).collect();
    let expected = [Place::Buffer(0..3), Place::Buffer(3..3), Place::Buffer(3..6)];
    assert_eq!((&values[..], &out[..]), (&expected[..], &b"b cf g"[..]));
}

#[test]
fn a_record_tells_what_the_iterator_gives() {
    let bytes = b"x\r\n\r\nA : b\r\nSigned-off-by: c,\r\n d\r\nx\r\nE:\r\n \x0b\r";
    let body = BodyRef::from_bytes(bytes).unwrap();
    let (_, table, out) = lent(8, 64, |table, out| list_from(bytes, body.cursor(), table, out));
    assert_eq!(table.len(), 3);
    for (record, trailer) in table.iter().zip(body.trailers()) {
        assert_eq!(record.token_bytes(bytes), trailer.token);
        assert_eq!(record.value_bytes(bytes, &out), &trailer.value[..]);
        assert_eq!((record.ending, record.line), (trailer.ending, trailer.line));
    }
}

#[test]
fn as_many_trailers_as_the_limit_has_room_for() {
    let input: Vec<u8> = b"A:\n".iter().copied().cycle().take(LIMIT).collect();
    let count = LIMIT / 3;
    let listed = |entries| lent(entries, 0, |table, out| list_from(&input, Cursor::FRONT, table, out));
    let (answer, table, _) = listed(count);
    assert_eq!(
        answer,
        Ok(Listed {
            records: count,
            bytes: 0
        })
    );
    for (k, record) in table.iter().enumerate() {
        assert_eq!((&record.token, record.line), (&(3 * k..3 * k + 1), k + 1));
    }
    let short = Refusal::ShortTable {
        records: count,
        bytes: 0,
    };
    assert_eq!(listed(count - 1).0, Err(short));
}

/// Holds the listing from a place to the single steps. How many records there were.
fn hold_from(input: &[u8], cursor: Cursor) -> usize {
    let (table, out) = stepped(input, cursor);
    let (records, bytes) = (table.len(), out.len());
    let call = |table: &mut [Record], out: &mut [u8]| list_from(input, cursor, table, out);
    hold(Listed { records, bytes }, &table, &out, call);
    records
}

#[test]
fn from_every_place_of_the_journal() {
    for entry in journal() {
        for place in 0..=entry.len() {
            hold_from(&entry, Cursor::of_place(&entry, place).unwrap());
        }
    }
}

/// What the generated inputs are made of.
const PIECES: [&[u8]; 9] = [
    b"t\n",
    b"\n",
    b"---\r\n",
    b"x\r",
    b"A: b\n",
    b"Signed-off-by: c\r\n",
    b"D:\n \x0b\n",
    b" e\n",
    b"\n\n",
];

#[test]
fn from_the_front_and_from_the_walk_s_start_of_generated_inputs() {
    let mut count = 0;
    for input in (0..5).flat_map(|len| generated(&PIECES, len)) {
        count += hold_from(&input, Cursor::FRONT);
        count += hold_from(&input, Cursor::of_message(&input).unwrap());
    }
    assert!(count > 10_000, "{count}");
}

#[test]
fn examples_of_messages() {
    let listed = |message: &[u8], entries, room| {
        let call = |table: &mut [Record], out: &mut [u8]| list_trailers(message, Reading::Whole, table, out);
        lent(entries, room, call)
    };
    let (answer, table, out) = listed(b"t\n\nx\n\nVehicle: 7\nRecords: 318,\n 22 late\n", 2, 12); // K1.6
    assert_eq!(answer, Ok(Listed { records: 2, bytes: 12 }));
    let expected = [
        record(6..13, Place::Message(15..16), Ending::Lf, 5),
        record(17..24, Place::Buffer(0..12), Ending::Lf, 6),
    ];
    assert_eq!((&table[..], &out[..]), (&expected[..], &b"318, 22 late"[..]));

    let (answer, table, _) = listed(b"t\n\nA: b\nB: c", 2, 0); // K8.1
    assert_eq!(answer, Ok(Listed { records: 2, bytes: 0 }));
    let expected = [
        record(3..4, Place::Message(6..7), Ending::Lf, 3),
        record(8..9, Place::Message(11..12), Ending::None, 4),
    ];
    assert_eq!(table, expected);
}

#[test]
fn refusal_1_judges_the_message_uncut() {
    let mut long = vec![b'x'; LIMIT + 1];
    long[..4].copy_from_slice(b"---\n");
    for reading in [Reading::Whole, Reading::AboveDivider] {
        let listed = |message: &[u8]| lent(0, 0, |table, out| list_trailers(message, reading, table, out)).0;
        assert_eq!(listed(&long), Err(Refusal::TooLong));
        assert_eq!(listed(&long[..LIMIT]), Ok(Listed { records: 0, bytes: 0 }));
    }
}

/// Holds a message's listing, in both readings, to the single steps. How many records there were.
fn hold_message(message: &[u8]) -> usize {
    let mut count = 0;
    let above = above_divider(message).unwrap();
    for (reading, read) in [(Reading::Whole, message), (Reading::AboveDivider, above)] {
        let (table, out) = stepped(read, Cursor::of_message(read).unwrap());
        let (records, bytes) = (table.len(), out.len());
        let call = |table: &mut [Record], out: &mut [u8]| list_trailers(message, reading, table, out);
        hold(Listed { records, bytes }, &table, &out, call);
        count += records;
    }
    count
}

#[test]
fn messages_of_the_journal() {
    let count: usize = journal().iter().map(|entry| hold_message(entry)).sum();
    assert!(count > 50, "{count}");
}

#[test]
fn generated_messages() {
    let messages = (0..6).flat_map(|len| generated(&PIECES, len));
    let count: usize = messages.map(|message| hold_message(&message)).sum();
    assert!(count > 10_000, "{count}");
}
