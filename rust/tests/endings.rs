//! How lines end: document 02's examples, and the line rule of the crate beside the archive's answers.

use sluicepod::{message_trailers, BodyRef, Ending};

fn body(bytes: &[u8]) -> BodyRef<'_> {
    BodyRef::from_bytes(bytes).unwrap()
}

/// The ending of each trailer of a body.
fn endings(bytes: &[u8]) -> Vec<Ending> {
    body(bytes).trailers().map(|trailer| trailer.ending).collect()
}

#[test]
fn examples_k2() {
    assert_eq!(Ending::of(b"a\r\r\n"), Ending::CrLf); // K2.1
    assert_eq!(Ending::of(b"a\r"), Ending::Cr); // K2.2

    let start = |bytes| (body(bytes).trailer_start(), body(bytes).ending());
    assert_eq!(start(b"x\r\n"), (3, Ending::CrLf)); // K2.3
    assert_eq!(start(b"A: b\r\n\n \n"), (0, Ending::CrLf)); // K2.5
    assert_eq!(start(b""), (0, Ending::None)); // K2.6

    let folded = body(b"A: b\r\n c\n").trailers().next().unwrap(); // K2.4
    assert_eq!(
        (folded.token, &folded.value[..], folded.ending),
        (&b"A"[..], &b"b c"[..], Ending::Lf)
    );
}

#[test]
fn every_call_that_gives_a_trailer() {
    let bytes = b"Signed-off-by: a\r\nB: b\r\n c\nD: d\r";
    let all = [Ending::CrLf, Ending::Lf, Ending::Cr];
    assert_eq!(endings(bytes), all);
    let message = [b"t\r\n\r\n", &bytes[..]].concat();
    let of_message: Vec<_> = message_trailers(&message).unwrap().map(|found| found.ending).collect();
    assert_eq!(of_message, all);
    let blocks = body(bytes).message_blocks().flat_map(|block| block.trailers());
    assert!(blocks.map(|trailer| trailer.ending).eq(all));
    assert!(body(bytes)
        .trailers()
        .authors()
        .map(|trailer| trailer.ending)
        .eq([Ending::CrLf]));
    assert_eq!(body(bytes).find(b"b").unwrap().ending, Ending::Lf);
    assert_eq!(body(bytes).find(b"d").unwrap().ending, Ending::Cr);
}

/// All lines of up to six bytes of these, without an LF and with one.
fn lines() -> Vec<Vec<u8>> {
    let mut texts = vec![Vec::new()];
    let mut from = 0;
    for _ in 0..6 {
        let to = texts.len();
        for at in from..to {
            for &byte in b"a \r\x0b" {
                let mut longer = texts[at].clone();
                longer.push(byte);
                texts.push(longer);
            }
        }
        from = to;
    }
    let with_lf = texts.iter().map(|text| [&text[..], b"\n"].concat());
    let with_lf: Vec<_> = with_lf.collect();
    texts.into_iter().chain(with_lf).collect()
}

#[test]
fn the_line_rule_is_the_archive_s() {
    let lines = lines();
    assert_eq!(lines.len(), 2 * 5461);
    for line in &lines {
        let shown = line.escape_ascii().to_string();
        let ending = Ending::of(line);

        // As a trailer line, and as the folded line of a trailer; blank lines below change nothing.
        let trailer = [b"A:", &line[..]].concat();
        assert_eq!(endings(&trailer), [ending], "{}", shown);
        assert_eq!(body(&trailer).ending(), ending, "{}", shown);
        let folded = [b"A:\r\n x", &line[..]].concat();
        assert_eq!(endings(&folded), [ending], "{}", shown);
        if line.ends_with(b"\n") {
            let above = [&trailer[..], b"\r\n \n\r"].concat();
            assert_eq!(endings(&above), [ending], "{}", shown);
            assert_eq!(body(&above).ending(), ending, "{}", shown);
        }

        // As all of a body: where it is blank, no line has an ending to tell.
        let blank = line.iter().all(u8::is_ascii_whitespace);
        let told = if blank { Ending::None } else { ending };
        assert_eq!(body(line).ending(), told, "{}", shown);
    }
}
