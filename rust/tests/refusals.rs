//! Input over the limit is refused, and input of just that length read.

use std::{borrow::Cow, error::Error};

use sluicepod::{message_summary, message_trailers, BodyRef, Ending, MessageRef, Refusal, TrailerRef, LIMIT};

#[test]
fn one_byte_more_is_refused() {
    let bytes = vec![b'x'; LIMIT + 1];
    assert_eq!(MessageRef::from_bytes(&bytes), Err(Refusal::TooLong));
    assert_eq!(BodyRef::from_bytes(&bytes), Err(Refusal::TooLong));
    assert_eq!(message_summary(&bytes), Err(Refusal::TooLong));
    assert_eq!(message_trailers(&bytes).err(), Some(Refusal::TooLong));

    let full = &bytes[1..];
    assert_eq!(MessageRef::from_bytes(full).unwrap().title.len(), LIMIT);
    assert_eq!(BodyRef::from_bytes(full).unwrap().trailer_start(), LIMIT);
    assert_eq!(message_summary(full).unwrap().len(), LIMIT);
    assert_eq!(message_trailers(full).unwrap().count(), 0);
}

#[test]
fn a_written_value_may_be_nearly_as_long_as_the_limit() {
    let mut bytes = b"A: b\n ".to_vec();
    bytes.resize(LIMIT, b'c');
    let body = BodyRef::from_bytes(&bytes).unwrap();
    assert_eq!(body.trailers().next().unwrap().value.len(), LIMIT - 4);
    assert_eq!(body.find(b"A").unwrap().value, body.trailers().next().unwrap().value);
}

#[test]
fn what_is_over_the_limit_by_hand() {
    let long = vec![b'x'; LIMIT + 1];
    let by_hand = MessageRef {
        title: &long,
        body: Some(&long),
    };
    assert_eq!(by_hand.summary(), Cow::Borrowed(&long[..]));
    assert_eq!(by_hand.body(), None);
    let trailer = TrailerRef {
        token: &long,
        value: Cow::Borrowed(b""),
        ending: Ending::None,
        line: 1,
    };
    assert!(!trailer.is_attribution());
    assert_eq!(BodyRef::from_bytes(b"x: y").unwrap().find(&long), None);
}

#[test]
fn numbers_and_words() {
    let refusals = [
        Refusal::TooLong,
        Refusal::BadPlace,
        Refusal::NoRoom { needed: 5 },
        Refusal::NotABundle,
        Refusal::BadHeader { line: 4 },
        Refusal::NotAMailbox { at: 5 },
        Refusal::NinthComment { at: 6 },
        Refusal::BadToken,
        Refusal::BadValue,
        Refusal::NothingToStandOn,
    ];
    assert_eq!(
        refusals.map(|refusal| refusal.number()),
        [1, 2, 3, 12, 13, 14, 15, 5, 6, 7]
    );
    let words: Box<dyn Error> = Box::new(refusals[0]);
    assert_eq!(words.to_string(), "the input is longer than 1048576 bytes");
    assert_eq!(refusals[1].to_string(), "the position or range is not in the input");
    assert_eq!(refusals[2].to_string(), "the buffer is too short: 5 bytes are needed");
    assert_eq!(refusals[3].to_string(), "not a bundle of at most 4096 messages");
    assert_eq!(
        refusals[4].to_string(),
        "the header is not a commit object's: line 4 is at fault"
    );
}
