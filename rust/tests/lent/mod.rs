//! Tables and buffers that are lent to a listing: just long enough, longer, and one entry or byte too short; what the single
//! steps give; and the inputs that listings are tried on.

use std::{fmt::Debug, fs};

use sluicepod::{next_trailer, Cursor, Ending, Listed, Place, Record, Refusal};

/// How many records and bytes an answer says were written.
pub trait Counts: Clone + Debug + PartialEq {
    fn counts(&self) -> (usize, usize);
}

impl Counts for Listed {
    fn counts(&self) -> (usize, usize) {
        (self.records, self.bytes)
    }
}

/// What stands in a table and in a buffer before a call.
const KEPT: Record = Record {
    token: 71..72,
    value: Place::Buffer(73..75),
    ending: Ending::Cr,
    line: 76,
};
const KEPT_BYTE: u8 = b'.';

/// How much longer than what is lent of them the table and the buffer are.
const BEHIND: usize = 2;

/// The answer of a listing that is lent so many entries and bytes, and what it wrote to the table and to the buffer. All behind
/// that, lent or not, must be kept, and on a refusal everything.
pub fn lent<T: Counts>(
    entries: usize,
    room: usize,
    call: impl FnOnce(&mut [Record], &mut [u8]) -> Result<T, Refusal>,
) -> (Result<T, Refusal>, Vec<Record>, Vec<u8>) {
    let mut table = vec![KEPT; entries + BEHIND];
    let mut out = vec![KEPT_BYTE; room + BEHIND];
    let answer = call(&mut table[..entries], &mut out[..room]);
    let (records, bytes) = answer.as_ref().map_or((0, 0), T::counts);
    assert!(records <= entries && bytes <= room);
    assert!(table[records..].iter().all(|record| *record == KEPT));
    assert!(out[bytes..].iter().all(|&byte| byte == KEPT_BYTE));
    table.truncate(records);
    out.truncate(bytes);
    (answer, table, out)
}

/// Holds a listing to its answer, these records and these bytes: with a table and a buffer that are just long enough, or longer;
/// and to its refusals, with both counts, where they are too short.
pub fn hold<T: Counts>(
    listed: T,
    records: &[Record],
    bytes: &[u8],
    call: impl Fn(&mut [Record], &mut [u8]) -> Result<T, Refusal>,
) {
    let (entries, room) = (records.len(), bytes.len());
    for longer in [0, 1, 9] {
        let (answer, table, out) = lent(entries + longer, room + longer, &call);
        assert_eq!((answer, &table[..], &out[..]), (Ok(listed.clone()), records, bytes));
    }
    let refused = |entries, room| lent(entries, room, &call).0.err();
    let needed = (records.len(), bytes.len());
    if entries > 0 {
        let (records, bytes) = needed;
        let short = Some(Refusal::ShortTable { records, bytes });
        assert_eq!(refused(entries - 1, room + 1), short);
        assert_eq!(refused(entries - 1, 0), short);
        assert_eq!(refused(0, room), short);
    }
    if room > 0 {
        let (records, bytes) = needed;
        let no_room = Some(Refusal::NoRoomForAll { records, bytes });
        assert_eq!(refused(entries, room - 1), no_room);
        assert_eq!(refused(entries + 1, 0), no_room);
    }
}

/// What the single steps give, called until the end, each with the part of a buffer that is still free.
pub fn stepped(input: &[u8], from: Cursor) -> (Vec<Record>, Vec<u8>) {
    let (mut records, mut bytes) = (Vec::new(), Vec::new());
    let mut out = vec![0; input.len()];
    let mut cursor = from;
    loop {
        let step = next_trailer(input, cursor, &mut out).unwrap();
        let Some(mut record) = step.record else {
            return (records, bytes);
        };
        if let Place::Buffer(part) = record.value {
            let used = bytes.len();
            bytes.extend_from_slice(&out[part.clone()]);
            record.value = Place::Buffer(used + part.start..used + part.end);
        }
        records.push(record);
        cursor = step.next;
    }
}

/// Every input of this many of the pieces.
pub fn generated<'a>(pieces: &'a [&[u8]], len: u32) -> impl Iterator<Item = Vec<u8>> + 'a {
    let count = pieces.len();
    (0..count.pow(len)).map(move |mut number| {
        let mut input = Vec::new();
        for _ in 0..len {
            input.extend_from_slice(pieces[number % count]);
            number /= count;
        }
        input
    })
}

/// The entries of the journal, but for those that fill the lister's limit.
pub fn journal() -> Vec<Vec<u8>> {
    let entries = fs::read_dir("../crates/journal/data").unwrap();
    let entries = entries.map(|entry| fs::read(entry.unwrap().path()).unwrap());
    let short: Vec<_> = entries.filter(|entry| entry.len() < 1_000).collect();
    assert!(short.len() > 10);
    short
}
