//! Document 01's cases, by their numbers.

use sluicepod::{message_summary, message_trailers, BodyRef, MessageRef};

fn message(bytes: &[u8]) -> MessageRef<'_> {
    MessageRef::from_bytes(bytes).unwrap()
}

fn body(bytes: &[u8]) -> BodyRef<'_> {
    BodyRef::from_bytes(bytes).unwrap()
}

/// Each trailer as `token: value`.
fn listed<'a>(trailers: impl Iterator<Item = sluicepod::TrailerRef<'a>>) -> Vec<String> {
    trailers
        .map(|trailer| format!("{}: {}", trailer.token.escape_ascii(), trailer.value.escape_ascii()))
        .collect()
}

fn blocks(bytes: &[u8]) -> Vec<(&[u8], Vec<String>)> {
    body(bytes)
        .message_blocks()
        .map(|block| (block.message, listed(block.trailers())))
        .collect()
}

#[test]
fn titles_1_to_3() {
    assert_eq!((message(b"").title, message(b"").body), (&b""[..], None));
    assert_eq!(
        (message(b"a\r\n\r\n").title, message(b"a\r\n\r\n").body),
        (&b"a"[..], None)
    );
    let split = message(b"a\n\r\nb");
    assert_eq!((split.title, split.body), (&b"a"[..], Some(&b"b"[..])));
    assert!(message(b"").body().is_none());
}

#[test]
fn summaries_4_and_5() {
    assert_eq!(*message(b"a\r\n\r\nb").summary(), *b"a");
    assert_eq!(*message_summary(b"a\r\n\r\nb").unwrap(), *b"a  b");
    assert_eq!(*message(b"a \n  b").summary(), *b"a   b");
}

#[test]
fn starts_6_to_11() {
    assert_eq!(body(b"x\r\n\r\nA: b").trailer_start(), 1);
    assert_eq!(
        blocks(b"x\r\n\r\nA: b"),
        [(&b"x\r\n\r\n"[..], vec!["A: b".to_string()])]
    );
    assert_eq!(body(b"Signed-off-by: a\nx\ny\nz").trailer_start(), 0);
    assert_eq!(
        listed(body(b"Signed-off-by: a\nx\ny\nz").trailers()),
        ["Signed-off-by: a"]
    );
    assert_eq!(body(b"Signed-off-by: a\nx\ny\nz\nw").trailer_start(), 24);
    assert_eq!(body(b"Signed-off-by: a\nx\ny\nz\nw").trailers().count(), 0);
    assert_eq!(body(b"Signed-off-by:a\nx").trailer_start(), 17);
    let picked = b"(cherry picked from commit 1)";
    assert_eq!(body(picked).trailer_start(), 0);
    assert_eq!(blocks(picked), [(&picked[..], vec![])]);
    assert_eq!(body(picked).trailers().count(), 0);
    assert_eq!(body(b" c\nA: b").trailer_start(), 7);
}

#[test]
fn trailers_12_and_13() {
    assert_eq!(body(b"A: b\n\t\x0b\n c").trailer_start(), 0);
    assert_eq!(listed(body(b"A: b\n\t\x0b\n c").trailers()), ["A: b c"]);
    assert_eq!(listed(body(b"Acked-by : A").trailers()), ["Acked-by: A"]);
    assert_eq!(body(b":x").trailers().count(), 0);
}

#[test]
fn blocks_14() {
    let two = blocks(b"A: b\nSigned-off-by: c\nx\nD: e\n");
    let above = vec!["A: b".to_string(), "Signed-off-by: c".to_string()];
    assert_eq!(two, [(&b""[..], above), (&b"x\n"[..], vec!["D: e".to_string()])]);
    assert_eq!(blocks(b""), []);
}

#[test]
fn the_lister_s_example() {
    let message = b"t\n\nx\n\nVehicle: 7\nRecords: 318,\n 22 late\n";
    let all = ["Vehicle: 7", "Records: 318, 22 late"];
    assert_eq!(listed(message_trailers(message).unwrap()), all);
    assert_eq!(
        listed(MessageRef::from_bytes(message).unwrap().body().unwrap().trailers()),
        all
    );
}
