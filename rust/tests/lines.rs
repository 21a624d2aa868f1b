//! The numbers of the lines where trailers start, document 02's K8: cases, and a plain count of LFs over generated messages.

use sluicepod::{message_trailers, BodyRef, MessageRef, TrailerRef, LIMIT};

fn body(bytes: &[u8]) -> BodyRef<'_> {
    BodyRef::from_bytes(bytes).unwrap()
}

/// Each trailer's number and token.
fn numbered<'a>(trailers: impl Iterator<Item = TrailerRef<'a>>) -> Vec<(usize, &'a [u8])> {
    trailers.map(|trailer| (trailer.line, trailer.token)).collect()
}

#[test]
fn examples_k8() {
    let walk = message_trailers(b"t\n\nA: b\nB: c").unwrap();
    assert_eq!(numbered(walk), [(3, &b"A"[..]), (4, b"B")]); // K8.1
    assert_eq!(numbered(body(b"A: b").trailers()), [(1, &b"A"[..])]); // K8.2
    let folded = body(b"\nA: b\n c\n d\nB: e");
    assert_eq!(numbered(folded.trailers()), [(2, &b"A"[..]), (5, b"B")]); // K8.3
    let last = body(b"A: 1\nB: 2\nA: 3").find(b"a").unwrap(); // K8.5
    assert_eq!((&last.value[..], last.line), (&b"3"[..], 3));
}

#[test]
fn a_message_and_its_body() {
    let message = b"t\nu\n\nx\n\nA: b\n c\nD: e\n";
    let walk = message_trailers(message).unwrap();
    assert_eq!(numbered(walk), [(6, &b"A"[..]), (8, b"D")]);

    let bare = MessageRef::from_bytes(message).unwrap().body().unwrap();
    assert_eq!(numbered(bare.trailers()), [(3, &b"A"[..]), (5, b"D")]);
    assert_eq!(bare.find(b"d").unwrap().line, 5);
}

#[test]
fn a_title_that_is_longer_by_lines() {
    for lines in 1..40 {
        let message = [&b"title\n".repeat(lines)[..], b"\nA: b\n"].concat();
        let walk = message_trailers(&message).unwrap();
        assert_eq!(numbered(walk), [(lines + 2, &b"A"[..])]);
    }
}

#[test]
fn a_cr_alone_ends_no_line() {
    let walk = body(b"A: b\rc\r\nD: e\r\n f\r\nG: h\r").trailers();
    assert_eq!(numbered(walk), [(1, &b"A"[..]), (2, b"D"), (4, b"G")]);
}

#[test]
fn filters_and_what_is_left_of_a_walk() {
    let bytes = b"Signed-off-by: a\nA: b\n\tc\nx\nAcked-by: d\nco-authored-by: e";
    let walk = || body(bytes).trailers();
    assert_eq!(
        numbered(walk().authors()),
        [(1, &b"Signed-off-by"[..]), (6, b"co-authored-by")]
    );
    assert_eq!(numbered(walk().attributions()).len(), 3);
    let mut from_the_third = walk();
    from_the_third.by_ref().take(2).for_each(drop);
    assert_eq!(numbered(from_the_third.attributions())[0], (5, &b"Acked-by"[..]));
}

#[test]
fn blocks_count_in_the_body() {
    let blocks = body(b"x\n\nA: b\nSigned-off-by: c\nx\ny\nD: e\n").message_blocks();
    let lines: Vec<_> = blocks.map(|block| numbered(block.trailers())).collect();
    assert_eq!(lines, [vec![(3, &b"A"[..]), (4, b"Signed-off-by")], vec![(7, b"D")]]);
}

#[test]
fn the_same_trailer_on_another_line_is_another_one() {
    let twice: Vec<_> = body(b"A: b\nA: b\n").trailers().collect();
    assert_ne!(twice[0], twice[1]);
    assert_eq!((&twice[0].token, &twice[0].value), (&twice[1].token, &twice[1].value));
}

#[test]
fn as_many_lines_as_the_limit_has_room_for() {
    let message = [&vec![b'\n'; LIMIT - 3][..], b"A:\n"].concat();
    let mut walk = message_trailers(&message).unwrap();
    assert_eq!(walk.next().map(|trailer| trailer.line), Some(LIMIT - 2));
    assert_eq!(walk.next(), None);
}

/// What the generated messages are made of.
const PIECES: [&[u8]; 9] = [
    b"t\n",
    b"\n",
    b"\r\n",
    b"x\r",
    b"A: b\n",
    b"Signed-off-by: c\r\n",
    b"Acked-by: d\n",
    b" e\n",
    b"\n\n",
];

/// Every message of this many pieces.
fn messages(pieces: u32) -> impl Iterator<Item = Vec<u8>> {
    let count = PIECES.len();
    (0..count.pow(pieces)).map(move |mut number| {
        let mut message = Vec::new();
        for _ in 0..pieces {
            message.extend_from_slice(PIECES[number % count]);
            number /= count;
        }
        message
    })
}

/// Holds each number to the LFs before its token, and to the one before it. How many there were.
fn hold<'a>(input: &[u8], trailers: impl Iterator<Item = TrailerRef<'a>>) -> usize {
    let mut count = 0;
    let mut above = 0;
    for trailer in trailers {
        let at = trailer.token.as_ptr() as usize - input.as_ptr() as usize;
        let lfs = input[..at].iter().filter(|&&byte| byte == b'\n').count();
        assert_eq!(trailer.line, 1 + lfs, "{}", input.escape_ascii());
        assert!(above < trailer.line, "{}", input.escape_ascii());
        above = trailer.line;
        count += 1;
    }
    count
}

#[test]
fn a_plain_count_over_generated_messages() {
    let mut held = [0; 5];
    for message in (0..6).flat_map(messages) {
        let input = &message[..];
        held[0] += hold(input, message_trailers(input).unwrap());
        held[1] += hold(input, message_trailers(input).unwrap().attributions());

        let body = body(input);
        let walked = hold(input, body.trailers());
        held[2] += walked;
        held[3] += hold(input, body.trailers().signed_off_by()) + hold(input, body.trailers().attributions());
        assert_eq!(
            hold(input, body.message_blocks().flat_map(|block| block.trailers())),
            walked
        );
        for trailer in body.trailers() {
            held[4] += hold(input, body.find(trailer.token).into_iter());
        }
    }
    assert!(held.iter().all(|&count| count > 10_000), "{held:?}");
}
