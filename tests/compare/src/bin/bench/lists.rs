//! All trailers of a typical message: the steps and the listing in one call, each beside the original's walk.

use std::hint::black_box;

use compare::archive::{self, OK, RECORD_LEN, RESULT_LEN, WHOLE};

use crate::{
    calls::{row, Row},
    shapes::typical,
    sides::{
        ours::{self, at},
        taken, theirs,
    },
};

/// What the original's walk is timed beside.
pub const CALLS: [&str; 2] = ["trailers of the message", "all trailers in one call"];

/// The records that the table has room for.
const ENTRIES: usize = 16;

/// A message, and how each of `CALLS` did.
pub fn rows() -> Vec<(String, [Row; 2])> {
    [200, 500, 1_000]
        .map(|len| {
            let shape = typical(len);
            let message = &shape.message[..];
            let (mut steps_out, mut out) = (vec![0; message.len()], vec![0; message.len()]);
            let mut table = [0; ENTRIES * RECORD_LEN];
            let theirs = || theirs::message_trailers(black_box(message));
            let steps = row(CALLS[0], theirs, || {
                ours::message_trailers(black_box(message), &mut steps_out)
            });
            let listed = row(CALLS[1], theirs, || list(black_box(message), &mut table, &mut out));
            (shape.name, [steps, listed])
        })
        .into()
}

#[inline(never)]
fn list(message: &[u8], table: &mut [usize], out: &mut [u8]) -> u64 {
    let mut result = [0; RESULT_LEN];
    assert_eq!(archive::list_trailers(message, WHOLE, table, out, &mut result), OK);
    let records = table.chunks_exact(RECORD_LEN).take(result[1]);
    records.fold(0, |sum, record| {
        taken(
            taken(sum, &message[record[0]..record[1]]),
            at(message, out, &record[2..]),
        )
    })
}
