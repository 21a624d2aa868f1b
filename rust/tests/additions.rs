//! A trailer added to a message: the worked examples of document 02, K3, by their numbers, the refusals in their order, and
//! what is read back.

use sluicepod::{add_trailer, add_trailer_into, message_trailers, Refusal, LIMIT};

/// What is written to a buffer of so many dots, and the buffer afterwards.
fn written(message: &[u8], token: &[u8], value: &[u8], room: usize) -> (Result<usize, Refusal>, Vec<u8>) {
    let mut out = vec![b'.'; room];
    let answer = add_trailer_into(message, token, value, &mut out);
    (answer, out)
}

/// The trailers of a message: tokens and unfolded values.
fn trailers(message: &[u8]) -> Vec<(Vec<u8>, Vec<u8>)> {
    let read = message_trailers(message).unwrap();
    read.map(|trailer| (trailer.token.to_vec(), trailer.value.into_owned()))
        .collect()
}

#[test]
fn written_1_to_4() {
    assert_eq!(written(b"t", b"A", b"v", 10), (Ok(8), b"t\n\nA: v\n..".to_vec()));
    assert_eq!(written(b"t\r", b"A", b"v", 10), (Ok(9), b"t\r\n\nA: v\n.".to_vec()));
    assert_eq!(add_trailer(b"t\r\n\r\n", b"A", b"v"), Ok(b"t\r\n\r\nA: v\r\n".to_vec()));
    assert_eq!(
        add_trailer(b"t\n\nB: c\n\n \n", b"A", b"v"),
        Ok(b"t\n\nB: c\nA: v\n".to_vec())
    );
}

#[test]
fn refused_5_and_6() {
    assert_eq!(written(b"", b"", b" ", 3), (Err(Refusal::BadToken), b"...".to_vec()));
    assert_eq!(
        written(b"t", b"A", b"", 4),
        (Err(Refusal::NoRoom { needed: 7 }), b"....".to_vec())
    );
    assert_eq!(add_trailer(b"", b"A", b" v"), Err(Refusal::BadValue));
    assert_eq!(add_trailer(b"", b"A", b"v\nw"), Err(Refusal::BadValue));
    assert_eq!(add_trailer(b"\n \r\n", b"A", b"v"), Err(Refusal::NothingToStandOn));
}

#[test]
fn the_limit_of_inputs_and_of_the_result() {
    let long = vec![b'x'; LIMIT + 1];
    assert_eq!(add_trailer(&long, b"", b""), Err(Refusal::TooLong));
    assert_eq!(add_trailer(b"t", &long, b""), Err(Refusal::TooLong));
    assert_eq!(add_trailer(b"t", b"A", &long), Err(Refusal::TooLong));
    assert_eq!(add_trailer(&long[1..], b"", b""), Err(Refusal::BadToken));
    assert_eq!(add_trailer(&long[..LIMIT - 6], b"A", b"v"), Err(Refusal::TooLong));
    let full = add_trailer(&long[..LIMIT - 7], b"A", b"v").unwrap();
    assert_eq!(full.len(), LIMIT);
    assert_eq!(trailers(&full), [(b"A".to_vec(), b"v".to_vec())]);
}

#[test]
fn one_after_another() {
    let mut entry = b"Offload of bus 7\r\n".to_vec();
    let mut told = Vec::new();
    for (token, value) in [
        ("Vehicle", "7"),
        ("Records", "318"),
        ("Offload-state", "complete"),
        ("Note", ""),
    ] {
        entry = add_trailer(&entry, token.as_bytes(), value.as_bytes()).unwrap();
        told.push((token.as_bytes().to_vec(), value.as_bytes().to_vec()));
        assert_eq!(trailers(&entry), told);
    }
    assert_eq!(
        entry,
        b"Offload of bus 7\r\n\r\nVehicle: 7\r\nRecords: 318\r\nOffload-state: complete\r\nNote: \r\n"
    );
}
