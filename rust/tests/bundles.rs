//! Bundles and their reports: the worked examples of document 02, K11, by their numbers, and the refusals in their order.

use std::ops::Range;

use sluicepod::{message_trailers, write_bundle, write_bundle_into, Bundle, Refusal, Report, LIMIT};

/// What is written to a buffer of so many bytes 0xaa, and the buffer afterwards.
fn written(input: &[u8], ranges: &[Range<usize>], room: usize) -> (Result<usize, Refusal>, Vec<u8>) {
    let mut out = vec![0xaa; room];
    let answer = write_bundle_into(input, ranges, &mut out);
    (answer, out)
}

fn report(bundle: &[u8]) -> Report {
    Bundle::from_bytes(bundle).unwrap().report()
}

#[test]
fn written_1_to_3() {
    assert_eq!(written(b"", &[], 9), (Ok(8), b"\0\0\0\0\x08\0\0\0\xaa".to_vec()));
    let three = b"\x03\0\0\0\x14\0\0\0\x16\0\0\0\x16\0\0\0\x18\0\0\0b\nab";
    let ranges = [1..3, 2..2, 0..2];
    assert_eq!(
        written(b"ab\n", &ranges, 26),
        (Ok(24), [&three[..], b"\xaa\xaa"].concat())
    );
    assert_eq!(write_bundle(b"ab\n", &ranges), Ok(three.to_vec()));
    assert_eq!(
        written(b"ab", &[0..2], 13),
        (Err(Refusal::NoRoom { needed: 14 }), vec![0xaa; 13])
    );

    let bundle = Bundle::from_bytes(three).unwrap();
    assert_eq!((bundle.len(), bundle.is_empty()), (3, false));
    assert_eq!(bundle.iter().collect::<Vec<_>>(), [&b"b\n"[..], b"", b"ab"]);
    assert_eq!(bundle.get(3), None);
    assert_eq!(bundle.get(usize::MAX), None);
}

#[test]
#[allow(clippy::reversed_empty_ranges)]
fn refused_4_to_6() {
    let mut ranges = vec![0..0; 4096];
    assert_eq!(written(b"ab", &ranges, 0).0, Err(Refusal::NoRoom { needed: 16_392 }));
    ranges.push(2..1);
    assert_eq!(written(b"ab", &ranges, 0).0, Err(Refusal::BadPlace));
    ranges[4096] = 0..0;
    assert_eq!(written(b"", &ranges, 0).0, Err(Refusal::NotABundle));
    assert_eq!(Bundle::from_bytes(b"\0\0\0\0\x08\0\0\0z"), Err(Refusal::NotABundle));
}

#[test]
fn reported_7_and_8() {
    let messages = b"t\n\nSIGNED-OFF-BY: a\nacked-by : b\nFixes: 1\nt\n\n(cherry picked from commit 1)";
    let seven = write_bundle(messages, &[0..42, 42..74, 0..0]).unwrap();
    let eight = Report {
        counts: [1, 0, 0, 1, 0, 0, 1],
        without: 2,
    };
    assert_eq!(report(&seven), eight);
    assert_eq!(eight.to_string(), "1\n0\n0\n1\n0\n0\n1\n2\n");
    let z = write_bundle(&[b'z'; 49_140], &[0..49_140]).unwrap();
    assert_eq!(z.len(), 49_152);
    assert_eq!(report(&z).to_string(), "0\n0\n0\n0\n0\n0\n0\n1\n");
}

/// 1 for an input, 2, 12, 1 for the result.
#[test]
fn refusals_in_their_order() {
    let long = vec![b'x'; LIMIT + 1];
    let many = vec![0..0; 4097];
    assert_eq!(write_bundle(&long, &[0..LIMIT + 2]), Err(Refusal::TooLong));
    assert_eq!(
        write_bundle(b"", &[&many[..], &[0..1]].concat()),
        Err(Refusal::BadPlace)
    );
    assert_eq!(
        write_bundle(&long[1..], &vec![0..LIMIT; 4097]),
        Err(Refusal::NotABundle)
    );
    assert_eq!(write_bundle(&long[1..], &vec![0..LIMIT; 4096]), Err(Refusal::TooLong));
    assert_eq!(written(&long[1..], &[0..LIMIT], 0).0, Err(Refusal::TooLong));
    assert_eq!(
        write_bundle(&long[1..], &[12..LIMIT]).map(|bundle| bundle.len()),
        Ok(LIMIT)
    );
    assert_eq!(Bundle::from_bytes(&long), Err(Refusal::TooLong));
    assert_eq!(Bundle::from_bytes(&long[1..]), Err(Refusal::NotABundle));
}

/// Every prefix of a bundle, and the bundle with any one byte of its header changed, is none, or one of other messages.
#[test]
fn one_list_of_messages() {
    let bytes = write_bundle(b"ab\n", &[1..3, 2..2, 0..2]).unwrap();
    for len in 0..bytes.len() {
        assert_eq!(Bundle::from_bytes(&bytes[..len]), Err(Refusal::NotABundle));
    }
    let whole: Vec<_> = Bundle::from_bytes(&bytes).unwrap().iter().collect();
    for at in 0..20 {
        for bit in 0..8 {
            let mut other = bytes.clone();
            other[at] ^= 1 << bit;
            if let Ok(bundle) = Bundle::from_bytes(&other) {
                let messages: Vec<_> = bundle.iter().collect();
                assert_ne!(messages, whole);
                let again: Vec<_> = messages.concat();
                let mut end = 0;
                let ranges: Vec<_> = messages
                    .iter()
                    .map(|message| {
                        end += message.len();
                        end - message.len()..end
                    })
                    .collect();
                assert_eq!(write_bundle(&again, &ranges), Ok(other));
            }
        }
    }
}

/// The seven sum to the trailers of the single walks, and reports add up in any order.
#[test]
fn sums() {
    let messages = [
        &b"t\n\nReviewed-by: a\nTESTED-BY: b\n"[..],
        b"",
        b"t\n\nCo-authored-by: c\nAssisted-by: d\n e\nAcked-by: f\nVehicle: 7\n\n",
        b"t\n\nSigned-off-by: g\nx\ny\nz",
        b"t\n\n(cherry picked from commit 1)",
    ];
    let input = messages.concat();
    let mut end = 0;
    let mut ranges: Vec<_> = messages
        .iter()
        .map(|message| {
            end += message.len();
            end - message.len()..end
        })
        .collect();
    let whole = report(&write_bundle(&input, &ranges).unwrap());
    let walked: usize = messages
        .iter()
        .map(|message| message_trailers(message).unwrap().count())
        .sum();
    assert_eq!(whole.counts.iter().sum::<usize>(), walked);
    assert_eq!(whole.counts, [1; 7]);
    assert_eq!(whole.without, 2);
    let parts = ranges
        .chunks(2)
        .map(|part| report(&write_bundle(&input, part).unwrap()));
    assert_eq!(parts.sum::<Report>(), whole);
    ranges.reverse();
    assert_eq!(report(&write_bundle(&input, &ranges).unwrap()), whole);
}
