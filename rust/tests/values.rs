//! A value that is a part of the input is borrowed from there, and one that was written is owned. A walk that is over
//! stays so.

use std::borrow::Cow;

use sluicepod::{message_summary, message_trailers, BodyRef, MessageRef};

/// Where a borrowed value starts in the input, or the bytes of an owned one.
fn held(input: &[u8], value: Cow<'_, [u8]>) -> Result<usize, Vec<u8>> {
    match value {
        Cow::Borrowed(part) => Ok(part.as_ptr() as usize - input.as_ptr() as usize),
        Cow::Owned(bytes) => Err(bytes),
    }
}

#[test]
fn summaries() {
    let message = b" a\tb \n\nc";
    assert_eq!(held(message, MessageRef::from_bytes(message).unwrap().summary()), Ok(1));
    assert_eq!(held(message, message_summary(message).unwrap()), Err(b"a\tb".to_vec()));
    assert_eq!(held(message, message_summary(&message[..5]).unwrap()), Ok(1));
    let message = b"a\nb";
    assert_eq!(
        held(message, MessageRef::from_bytes(message).unwrap().summary()),
        Err(b"a b".to_vec())
    );
}

#[test]
fn trailers() {
    let message = b"t\n\nA: b\nC: d\n e\nF:\n \x0b\n";
    let values: Vec<_> = message_trailers(message)
        .unwrap()
        .map(|trailer| held(message, trailer.value))
        .collect();
    assert_eq!(values, [Ok(6), Err(b"d e".to_vec()), Err(vec![])]);
    let first = message_trailers(message).unwrap().next().unwrap();
    assert_eq!(first.token.as_ptr(), message[3..].as_ptr());
}

/// Values that are written by a call that is made once, and by one that is made again with more room.
#[test]
fn written_values_of_every_length() {
    for len in 1..300 {
        let bytes = [b"A: ", &vec![b'b'; len][..], b"\n c\n"].concat();
        let body = BodyRef::from_bytes(&bytes).unwrap();
        let value = [&vec![b'b'; len][..], b" c"].concat();
        let trailers: Vec<_> = body.trailers().collect();
        assert_eq!(trailers.len(), 1);
        assert_eq!(held(&bytes, trailers[0].value.clone()), Err(value));
        assert_eq!(body.find(b"a").as_ref(), Some(&trailers[0]));
        let title = &bytes[..bytes.len() - 1];
        let summary = message_summary(title).unwrap();
        assert_eq!(
            held(title, summary.clone()),
            Err([b"A: ", &vec![b'b'; len][..], b"  c"].concat())
        );
        assert_eq!(MessageRef::from_bytes(title).unwrap().summary(), summary);
    }
}

#[test]
fn found() {
    let bytes = b"A: b\nC: d\n e\n";
    let body = BodyRef::from_bytes(bytes).unwrap();
    assert_eq!(held(bytes, body.find(b"a").unwrap().value), Ok(3));
    assert_eq!(held(bytes, body.find(b"c").unwrap().value), Err(b"d e".to_vec()));
    assert_eq!(body.find(b"d"), None);
    assert_eq!(body.find(b""), None);

    // Of several with the name the last one is found; the others, folded or not, are passed over.
    let bytes = b"A: 1\n 2\na: 3\nB: 4\n";
    let body = BodyRef::from_bytes(bytes).unwrap();
    assert_eq!(held(bytes, body.find(b"A").unwrap().value), Ok(11));
}

#[test]
fn filtered() {
    let bytes = b"A: b\n c\nSigned-off-by: d\n e\nAcked-by: f\n g\nsigned-off-by: h\n";
    let signers = BodyRef::from_bytes(bytes).unwrap().trailers().signed_off_by();
    let values: Vec<_> = signers.map(|trailer| held(bytes, trailer.value)).collect();
    assert_eq!(values, [Err(b"d e".to_vec()), Ok(58)]);
}

#[test]
fn over() {
    let body = BodyRef::from_bytes(b"x\n\nA: b\n").unwrap();
    let (mut trailers, mut blocks) = (body.trailers(), body.message_blocks());
    assert!(trailers.next().is_some() && blocks.next().is_some());
    for _ in 0..2 {
        assert!(trailers.next().is_none() && blocks.next().is_none());
    }
}
