//! How the list is laid out.

use compare::{
    answers::{names, Attribution, Block, Part, Trailer, Value},
    original,
};

/// What stands where a walk or a lookup gives something, and where it gives nothing more.
const MORE: usize = 1;
const NO_MORE: usize = 0;

/// What the answers are about, as the program prints it, in the list's order.
pub const ANSWERS: [&str; 10] = [
    "title and body",
    "title summary",
    "message summary",
    "message trailers",
    "block start",
    "trailers",
    "filtered trailers",
    "blocks",
    "lookup",
    "token questions",
];

/// How many messages, in two bytes, and each of them with its answers.
pub fn list(messages: &[Vec<u8>]) -> Vec<u8> {
    let mut out = Vec::new();
    two_bytes(&mut out, messages.len());
    for (turn, message) in messages.iter().enumerate() {
        bytes(&mut out, message);
        out.extend(answers(message, turn).concat());
    }
    out
}

pub fn two_bytes(out: &mut Vec<u8>, number: usize) {
    out.extend_from_slice(&u16::try_from(number).expect("a number of two bytes").to_le_bytes());
}

/// One byte; from 255 on a byte 255 and two more, the lower first.
fn number(out: &mut Vec<u8>, number: usize) {
    match u8::try_from(number) {
        Ok(byte) if byte < 255 => out.push(byte),
        _ => {
            out.push(255);
            two_bytes(out, number);
        }
    }
}

/// The length, and the bytes.
pub fn bytes(out: &mut Vec<u8>, bytes: &[u8]) {
    number(out, bytes.len());
    out.extend_from_slice(bytes);
}

/// The answers about an input that is taken as a message, as a body and as a token.
pub fn answers(input: &[u8], turn: usize) -> [Vec<u8>; 10] {
    let reading = original::read(input);
    let mut answers: [Vec<u8>; 10] = Default::default();
    let [title_and_body, summary, message_summary, message_trailers, start, trailers, filtered, found, named, as_token] =
        &mut answers;
    number(title_and_body, reading.title_end);
    // A body never starts at 0.
    number(title_and_body, reading.body_start.unwrap_or(0));
    value(summary, &reading.summary);
    value(message_summary, &reading.message_summary);
    number(message_trailers, original::message_walk_start(input));
    walk(message_trailers, input, &reading.message_trailers);

    number(start, reading.block_start);
    walk(trailers, input, &reading.trailers);
    for of_kind in &reading.filtered {
        walk(filtered, input, of_kind);
    }
    blocks(found, &reading.blocks);
    lookup(named, input, &reading.trailers, turn);
    number(as_token, questions(reading.as_token));
    answers
}

/// 0 for a part that is empty, wherever it is; 1, its start and its end for one that is not; 2 and the bytes for what
/// was written.
fn value(out: &mut Vec<u8>, value: &Value) {
    match value {
        Value::Empty => number(out, 0),
        Value::Part(place) => {
            number(out, 1);
            part(out, *place);
        }
        Value::Written(written) => {
            number(out, 2);
            bytes(out, written);
        }
    }
}

fn part(out: &mut Vec<u8>, part: Part) {
    number(out, part.start);
    number(out, part.end);
}

/// The token, the value, and the questions about the token.
fn trailer(out: &mut Vec<u8>, input: &[u8], trailer: &Trailer) {
    part(out, trailer.token);
    value(out, &trailer.value);
    number(out, questions(original::attribution(trailer.token.of(input))));
}

fn walk(out: &mut Vec<u8>, input: &[u8], trailers: &[Trailer]) {
    for step in trailers {
        number(out, MORE);
        trailer(out, input, step);
        number(out, step.next);
    }
    number(out, NO_MORE);
}

fn blocks(out: &mut Vec<u8>, blocks: &[Block]) {
    for block in blocks {
        number(out, MORE);
        number(out, block.message.end);
        number(out, block.trailer_part.end);
    }
    number(out, NO_MORE);
}

/// Where there are trailers, one of `names`, each in its turn, and the trailer found.
fn lookup(out: &mut Vec<u8>, input: &[u8], trailers: &[Trailer], turn: usize) {
    if trailers.is_empty() {
        return number(out, NO_MORE);
    }
    let names = names(input, trailers);
    let name = &names[turn % names.len()];
    number(out, MORE);
    bytes(out, name);
    match original::find(input, name) {
        Some(found) => {
            number(out, MORE);
            trailer(out, input, &found);
        }
        None => number(out, NO_MORE),
    }
}

/// The seven questions, one bit each.
fn questions(of: Attribution) -> usize {
    [
        of.signed_off_by,
        of.co_authored_by,
        of.assisted_by,
        of.acked_by,
        of.reviewed_by,
        of.tested_by,
        of.attribution,
    ]
    .into_iter()
    .enumerate()
    .map(|(bit, yes)| usize::from(yes) << bit)
    .sum()
}

#[cfg(test)]
mod tests {
    use super::*;

    #[test]
    fn a_message_and_its_answers_byte_by_byte() {
        #[rustfmt::skip]
        let a_trailer: &[u8] = &[
            1, 0, // one message
            3, b'A', b':', b'b',
            3, 0, // the title's end, no body
            1, 0, 3, // the title's summary, a part
            1, 0, 3, // the message's summary, a part
            3, 0, // the message's walk begins and ends at its end
            0, // the body's block start
            1, 0, 1, 1, 2, 3, 0, 3, // a trailer: token, value, questions, next
            0, // no other
            0, 0, 0, 0, 0, // the filters
            1, 0, 3, // a block: no message, and trailers up to 3
            0, // no other
            1, 0, 0, // the lookup of no name, and nothing found
            0, // the questions about the input
        ];
        assert_eq!(list(&[b"A:b".to_vec()]), a_trailer);
    }

    #[test]
    fn numbers_of_one_byte_and_of_three() {
        let mut out = Vec::new();
        for n in [0, 254, 255, 256, 4096] {
            number(&mut out, n);
        }
        assert_eq!(out, [0, 254, 255, 255, 0, 255, 0, 1, 255, 0, 16]);
    }
}
