//! Who signed: the examples of the mailbox, its limit, and the trailers that have one.

use sluicepod::{mailbox, message_trailers, Refusal, LIMIT};

#[test]
fn examples() {
    let found = |value: &'static [u8]| mailbox(value).map(|found| (found.name, found.address));
    assert_eq!(found(b" (x) <a@b>"), Ok((&b""[..], &b"a@b"[..])));
    assert_eq!(
        found(b"(c) \"A \\\" B\"(d)C (e) <(f) a (g)@ b\t> (h)"),
        Ok((&b"\"A \\\" B\"(d)C"[..], &b"a (g)@ b"[..]))
    );
    assert_eq!(found(b"A\"B\"C<a@b>"), Ok((&b"A\"B\"C"[..], &b"a@b"[..])));
    assert_eq!(found(b"A. B <a@b>"), Err(Refusal::NotAMailbox { at: 1 }));
    assert_eq!(found(b"\"A <a@b>"), Err(Refusal::NotAMailbox { at: 8 }));
    assert_eq!(found(b"(((((((((x)))))))))<a@b>"), Err(Refusal::NinthComment { at: 8 }));
    assert_eq!(found(b"\"\\\x7f\" <a@b>"), Err(Refusal::NotAMailbox { at: 2 }));
    assert_eq!(found(b"A <a..b@c>"), Err(Refusal::NotAMailbox { at: 5 }));
}

#[test]
fn one_byte_more_is_refused() {
    let mut value = vec![b' '; LIMIT + 1];
    value[LIMIT - 4..].copy_from_slice(b"<a@b>");
    assert_eq!(mailbox(&value), Err(Refusal::TooLong));
    assert_eq!(mailbox(&value[1..]).unwrap().address, b"a@b");
}

#[test]
fn of_a_trailer() {
    let message = b"t\n\nVehicle: 7\nSigned-off-by: Ada\n\tDoe <ada@b>\nAcked-by: A. Doe <a@b>\n";
    let trailers: Vec<_> = message_trailers(message).unwrap().collect();
    assert_eq!(trailers[0].mailbox(), None);
    let signer = trailers[1].mailbox().unwrap();
    assert_eq!((signer.name, signer.address), (&b"Ada Doe"[..], &b"ada@b"[..]));
    assert_eq!(trailers[2].mailbox(), None);
}

#[test]
fn numbers_and_words() {
    let refusals = [Refusal::NotAMailbox { at: 3 }, Refusal::NinthComment { at: 8 }];
    assert_eq!(refusals.map(|refusal| refusal.number()), [14, 15]);
    assert_eq!(refusals[0].to_string(), "no mailbox goes on at byte 3");
    assert_eq!(
        refusals[1].to_string(),
        "a ninth comment is opened inside eight at byte 8"
    );
}
