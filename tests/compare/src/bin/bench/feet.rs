//! The foot of a body of 1 MiB, given whole, beside that of 1 KiB over the same foot: what stands above is not read.

use std::hint::black_box;

use compare::{
    answers::LIMIT,
    archive::{self, OK, RECORD_LEN, RESULT_LEN},
};

use crate::{
    race::{race, Race},
    shapes::over_a_foot,
};

/// The records that the table has room for.
const ENTRIES: usize = 16;

/// How the mebibyte did beside the kibibyte, whose time is the first of the race.
pub fn whole() -> Race {
    let [short, long] = [1_024, LIMIT].map(|len| over_a_foot("", len).body.expect("a body"));
    race(|| list(black_box(&short)), || list(black_box(&long))).expect("the same foot")
}

/// A number made of all that was listed.
#[inline(never)]
fn list(body: &[u8]) -> u64 {
    let (mut table, mut out, mut result) = ([0; ENTRIES * RECORD_LEN], [0; 256], [0; RESULT_LEN]);
    assert_eq!(archive::list_foot(body, true, &mut table, &mut out, &mut result), OK);
    let numbers = table[..result[1] * RECORD_LEN].iter().chain(&result[1..4]);
    numbers.fold(0, |sum: u64, &number| sum.wrapping_mul(31).wrapping_add(number as u64))
}
