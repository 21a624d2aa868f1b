//! The original's recorded answers: crates/replay/data/list, which crates/replay/README.md describes.

use std::borrow::Cow;

use sluicepod::{message_summary, message_trailers, BodyRef, Ending, MessageRef, TrailerRef};

/// A part of the message, from its start up to its end.
type Part = (usize, usize);

#[derive(Debug, PartialEq)]
enum Value {
    Empty,
    Part(Part),
    Written(Vec<u8>),
}

/// The token, the value, and the questions about the token.
type Trailer = (Part, Value, usize);

/// What of the list is not read yet.
struct List<'a>(&'a [u8]);

impl<'a> List<'a> {
    fn take(&mut self, len: usize) -> &'a [u8] {
        let (taken, rest) = self.0.split_at(len);
        self.0 = rest;
        taken
    }

    fn two_bytes(&mut self) -> usize {
        let bytes = self.take(2);
        usize::from(bytes[0]) + 256 * usize::from(bytes[1])
    }

    fn number(&mut self) -> usize {
        match self.take(1)[0] {
            255 => self.two_bytes(),
            number => number.into(),
        }
    }

    fn bytes(&mut self) -> &'a [u8] {
        let len = self.number();
        self.take(len)
    }

    fn part(&mut self) -> Part {
        (self.number(), self.number())
    }

    fn value(&mut self) -> Value {
        match self.number() {
            0 => Value::Empty,
            1 => Value::Part(self.part()),
            _ => Value::Written(self.bytes().to_vec()),
        }
    }

    fn trailer(&mut self) -> Trailer {
        (self.part(), self.value(), self.number())
    }

    fn walk(&mut self) -> Vec<Trailer> {
        let mut trailers = Vec::new();
        while self.number() == 1 {
            trailers.push(self.trailer());
            self.number(); // where the walk goes on
        }
        trailers
    }
}

/// The crate's answers about a message, in the list's terms.
struct Answers<'a>(&'a [u8]);

impl Answers<'_> {
    fn part(&self, part: &[u8]) -> Part {
        let start = part.as_ptr() as usize - self.0.as_ptr() as usize;
        (start, start + part.len())
    }

    fn value(&self, value: Cow<'_, [u8]>) -> Value {
        match value {
            Cow::Borrowed(b"") => Value::Empty,
            Cow::Borrowed(part) => Value::Part(self.part(part)),
            Cow::Owned(bytes) => Value::Written(bytes),
        }
    }

    fn trailer(&self, trailer: TrailerRef<'_>) -> Trailer {
        let answers = questions(&trailer);
        (self.part(trailer.token), self.value(trailer.value), answers)
    }

    fn walk<'a>(&self, trailers: impl Iterator<Item = TrailerRef<'a>>) -> Vec<Trailer> {
        trailers.map(|trailer| self.trailer(trailer)).collect()
    }
}

fn questions(trailer: &TrailerRef<'_>) -> usize {
    let answers = [
        trailer.is_signed_off_by(),
        trailer.is_co_authored_by(),
        trailer.is_assisted_by(),
        trailer.is_acked_by(),
        trailer.is_reviewed_by(),
        trailer.is_tested_by(),
        trailer.is_attribution(),
    ];
    answers.iter().rev().fold(0, |sum, &yes| 2 * sum + usize::from(yes))
}

fn replay_as_message(list: &mut List<'_>, input: &[u8]) {
    let ours = Answers(input);
    let message = MessageRef::from_bytes(input).unwrap();
    assert_eq!(ours.part(message.title), (0, list.number()));
    let body_start = list.number();
    assert_eq!(message.body, (body_start > 0).then(|| &input[body_start..]));
    assert_eq!(ours.value(message.summary()), list.value());
    assert_eq!(ours.value(message_summary(input).unwrap()), list.value());
    list.number(); // where the walk begins
    let walked = list.walk();
    assert_eq!(ours.walk(message_trailers(input).unwrap()), walked);
    assert_eq!(
        ours.walk(message.body().into_iter().flat_map(|body| body.trailers())),
        walked
    );
}

fn replay_as_body(list: &mut List<'_>, input: &[u8]) {
    let ours = Answers(input);
    let body = BodyRef::from_bytes(input).unwrap();
    assert_eq!(ours.part(body.without_trailer()), (0, list.number()));
    let walked = list.walk();
    assert_eq!(ours.walk(body.trailers()), walked);
    assert_eq!(ours.walk(body.trailers().signed_off_by()), list.walk());
    assert_eq!(ours.walk(body.trailers().co_authored_by()), list.walk());
    assert_eq!(ours.walk(body.trailers().assisted_by()), list.walk());
    assert_eq!(ours.walk(body.trailers().attributions()), list.walk());
    assert_eq!(ours.walk(body.trailers().authors()), list.walk());
    replay_blocks(list, input, &body);
    assert_eq!(
        ours.walk(body.message_blocks().flat_map(|block| block.trailers())),
        walked
    );
    if list.number() == 1 {
        let found = body.find(list.bytes()).map(|trailer| ours.trailer(trailer));
        assert_eq!(found, (list.number() == 1).then(|| list.trailer()));
    }
}

fn replay_blocks(list: &mut List<'_>, input: &[u8], body: &BodyRef<'_>) {
    let mut end = 0;
    for block in body.message_blocks() {
        assert_eq!(list.number(), 1);
        assert_eq!(block.message, &input[end..list.number()]);
        end = list.number();
    }
    assert_eq!(list.number(), 0);
    assert_eq!(end, input.len());
}

fn replay_as_token(list: &mut List<'_>, token: &[u8]) {
    let trailer = TrailerRef {
        token,
        value: Cow::Borrowed(b""),
        ending: Ending::None,
        line: 1,
    };
    assert_eq!(questions(&trailer), list.number());
}

#[test]
fn every_recorded_answer() {
    let bytes = std::fs::read("../crates/replay/data/list").unwrap();
    let mut list = List(&bytes);
    let count = list.two_bytes();
    assert!(count > 0);
    for number in 0..count {
        let input = list.bytes();
        println!("message {}: {}", number, input.escape_ascii()); // shown where an answer differs
        replay_as_message(&mut list, input);
        replay_as_body(&mut list, input);
        replay_as_token(&mut list, input);
    }
    assert!(list.0.is_empty());
}
