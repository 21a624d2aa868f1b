//! Both readings: document 02's examples K7.1 to K7.6, and each call on a message and on the message so cut.

use sluicepod::{above_divider, message_end, message_summary, message_trailers, MessageRef, Reading, Refusal, LIMIT};

/// The message above its first divider, by document 02's sentence and a plain reading of the lines.
fn plainly_cut(message: &[u8]) -> &[u8] {
    let mut end = 0;
    for line in message.split_inclusive(|&byte| byte == b'\n') {
        let text = line.strip_suffix(b"\n").unwrap_or(line);
        let text = text.strip_suffix(b"\r").unwrap_or(text);
        if text == b"---" || text.starts_with(b"--- ") {
            break;
        }
        end += line.len();
    }
    &message[..end]
}

#[test]
fn examples_k7() {
    let end = |message| message_end(message, Reading::AboveDivider);
    assert_eq!(end(b"t\n\nA: b\n---\nx"), Ok(8)); // K7.1
    assert_eq!(end(b"t\n---"), Ok(2)); // K7.2
    assert_eq!(end(b"t\n---\t\n"), Ok(7)); // K7.3
    assert_eq!(end(b"t\n---\r\n"), Ok(2)); // K7.4
    let body = |message| MessageRef::from_bytes(message).unwrap().body().unwrap();
    let message = b"t\n\nx\n---\n\nA: b"; // K7.5
    assert_eq!(body(above_divider(message).unwrap()).trailer_start() + 3, 5);
    assert_eq!(body(message).trailer_start() + 3, 8);
}

#[test]
fn refusal_1_judges_the_message_uncut() {
    let mut long = vec![b'x'; LIMIT + 1]; // K7.6
    long[..4].copy_from_slice(b"---\n");
    assert_eq!(above_divider(&long[..LIMIT]), Ok(&b""[..]));
    assert_eq!(above_divider(&long), Err(Refusal::TooLong));
    assert_eq!(message_end(&long, Reading::AboveDivider), Err(Refusal::TooLong));
    assert_eq!(message_end(&long, Reading::Whole), Err(Refusal::TooLong));
    assert_eq!(message_end(&long[..LIMIT], Reading::Whole), Ok(LIMIT));
}

#[test]
fn nothing_of_the_patch_is_read() {
    let mail = b"Offload of bus 9\n\nVehicle: 9\nOffload-state: complete\n---\n a | 1 +\n\nOffload-state: partial\n";
    let states = |message| {
        let trailers = message_trailers(message).unwrap();
        trailers.map(|trailer| trailer.value.into_owned()).collect::<Vec<_>>()
    };
    assert_eq!(states(mail), [b"partial"]);
    assert_eq!(states(above_divider(mail).unwrap()), [&b"9"[..], b"complete"]);
    assert_eq!(
        &message_summary(above_divider(b"a\nb\n---\nc").unwrap()).unwrap()[..],
        b"a b"
    );
}

/// All messages of up to six pieces of an alphabet for the divider.
#[test]
fn every_short_message_is_cut_as_the_sentence_says() {
    let pieces: [&[u8]; 8] = [b"-", b"--", b"---", b" ", b"\t", b"\r", b"\n", b"x"];
    let mut count = 0;
    for len in 0..=6u32 {
        for mut number in 0..pieces.len().pow(len) {
            let mut message = Vec::new();
            for _ in 0..len {
                message.extend_from_slice(pieces[number % pieces.len()]);
                number /= pieces.len();
            }
            assert_eq!(above_divider(&message), Ok(plainly_cut(&message)), "{:?}", message);
            count += 1;
        }
    }
    assert_eq!(count, 299_593);
}
