//! A trailer added to a message, beside a plain copy of the message into the same buffer.

use std::hint::black_box;

use compare::{
    answers::LIMIT,
    archive::{self, OK, RESULT_LEN},
};

use crate::{
    race::{race, Race},
    shapes::{over_a_foot, typical},
};

/// A message, and how the addition did beside the copy: the first time of the race is the copy's.
pub struct Row {
    pub message: String,
    pub race: Race,
}

const TOKEN: &[u8] = b"Offload-state";
const VALUE: &[u8] = b"complete";

/// What the new line takes at most.
const MORE: usize = 32;

pub fn rows() -> Vec<Row> {
    let mut messages: Vec<(String, Vec<u8>)> = [200, 1_000].map(typical).into_iter().map(named).collect();
    messages.push(named(over_a_foot(
        "1 MiB over a foot",
        LIMIT - "title\n\n".len() - MORE,
    )));
    messages.push(("1 MiB of text".to_owned(), text(LIMIT - MORE)));
    messages
        .into_iter()
        .map(|(name, message)| {
            let (mut copy_out, mut out) = (vec![0; LIMIT], vec![0; LIMIT]);
            let copied = || copy(black_box(&message), &mut copy_out);
            let added = || add(black_box(&message), &mut out);
            Row {
                message: name,
                race: race(copied, added).expect("both begin alike"),
            }
        })
        .collect()
}

fn named(shape: crate::shapes::Shape) -> (String, Vec<u8>) {
    (shape.name, shape.message)
}

/// A title and paragraphs of text, with no block at the end.
fn text(len: usize) -> Vec<u8> {
    let mut out = b"title\n\n".to_vec();
    let paragraph =
        b"The aerial on stand three drops out while a bus is offloaded, and so\ndoes the one on stand four.\n\n";
    while out.len() + paragraph.len() <= len {
        out.extend_from_slice(paragraph);
    }
    out.pop();
    out
}

/// A byte of the middle of what was written: both sides must have it.
fn middle(message: &[u8], out: &[u8]) -> u64 {
    u64::from(black_box(out)[message.len() / 2])
}

#[inline(never)]
fn copy(message: &[u8], out: &mut [u8]) -> u64 {
    out[..message.len()].copy_from_slice(message);
    middle(message, out)
}

#[inline(never)]
fn add(message: &[u8], out: &mut [u8]) -> u64 {
    let mut result = [0; RESULT_LEN];
    assert_eq!(archive::add_trailer(message, TOKEN, VALUE, out, &mut result), OK);
    middle(message, out)
}
