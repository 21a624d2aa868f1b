//! A night in one bundle: 4,096 typical messages in a mebibyte, and its report beside the original's walks of the same messages.

use std::hint::black_box;

use compare::{
    answers::LIMIT,
    archive::{self, OK, RESULT_LEN},
};

use crate::{
    calls::{row, Row},
    shapes::typical,
    sides::{ours, theirs},
};

const MESSAGES: usize = 4_096;

/// What is timed, and on what.
pub fn report() -> (String, Row) {
    let room = (LIMIT - 8 - 4 * MESSAGES) / MESSAGES;
    let message = typical(room).message;
    let messages = vec![&message[..]; MESSAGES];
    let ranges = [0, message.len()].repeat(MESSAGES);
    let mut bundle = vec![0; LIMIT];
    let mut result = [0; RESULT_LEN];
    assert_eq!(archive::write_bundle(&message, &ranges, &mut bundle, &mut result), OK);
    bundle.truncate(result[1]);
    let timed = row(
        "report of the bundle",
        || theirs::report(black_box(&messages)),
        || ours::report(black_box(&bundle)),
    );
    (format!("4,096 messages of {} bytes", message.len()), timed)
}
