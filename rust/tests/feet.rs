//! The foot of a body: document 02's examples of K6 by their numbers, and every cut of many bodies beside the full walk told
//! from the end.

#[allow(dead_code)]
#[path = "../examples/foot.rs"]
mod example;
mod lent;

use std::{env, fs, io::Cursor as File, ops::Range, process};

use sluicepod::{list_foot, BodyRef, Ending, Foot, Place, Record, Refusal, LIMIT};

use lent::{generated, hold, journal, lent, stepped, Counts};

impl Counts for Foot {
    fn counts(&self) -> (usize, usize) {
        (self.records, self.bytes)
    }
}

fn foot(records: usize, bytes: usize, lines: usize) -> Foot {
    Foot { records, bytes, lines }
}

fn record(token: Range<usize>, value: Range<usize>, ending: Ending, line: usize) -> Record {
    Record {
        token,
        value: Place::Message(value),
        ending,
        line,
    }
}

#[test]
fn examples_k6() {
    let listed = |tail: &[u8], whole, entries| {
        let (answer, table, _) = lent(entries, 0, |table, out| list_foot(tail, whole, table, out));
        answer.map(|foot| (foot, table))
    };
    let last = || record(4..3, 1..0, Ending::None, 1);
    assert_eq!(listed(b"x\n\nA: b", false, 1), Ok((foot(1, 0, 2), vec![last()]))); // K6.1
    assert_eq!(listed(b"\nA: b", false, 1), Err(Refusal::MoreBytes)); // K6.2
    assert_eq!(listed(b"\nA: b", true, 1), Ok((foot(1, 0, 2), vec![last()]))); // K6.3
    let above_blanks = record(8..7, 5..4, Ending::Lf, 3);
    assert_eq!(
        listed(b"x\n\nA: b\n\n \n", false, 1),
        Ok((foot(1, 0, 4), vec![above_blanks]))
    ); // K6.4
    assert_eq!(listed(b"x\n\n\n", false, 0), Err(Refusal::MoreBytes)); // K6.5
    let two = listed(b"x\n\nA: b\n c\nB: d\n", false, 1);
    assert_eq!(two, Err(Refusal::ShortTable { records: 2, bytes: 3 })); // K6.6

    let both = vec![record(11..10, 8..7, Ending::Lf, 3), record(6..5, 3..2, Ending::Lf, 2)];
    assert_eq!(listed(b"A: b\nB: c\n\n", true, 2), Ok((foot(2, 0, 3), both))); // K8.4
}

#[test]
fn refusals_in_their_order() {
    let listed = |tail: &[u8], whole, entries| lent(entries, 0, |table, out| list_foot(tail, whole, table, out)).0;
    let long = vec![b'x'; LIMIT + 1];
    assert_eq!(listed(&long, false, 0), Err(Refusal::TooLong));
    assert_eq!(listed(&long[1..], false, 0), Err(Refusal::MoreBytes));
    assert_eq!(listed(&long[1..], true, 0), Ok(foot(0, 0, 1)));
    let (records, bytes) = (1, 3);
    assert_eq!(
        listed(b"x\n\nA: b\n c", false, 0),
        Err(Refusal::ShortTable { records, bytes })
    );
    assert_eq!(
        listed(b"x\n\nA: b\n c", false, 1),
        Err(Refusal::NoRoomForAll { records, bytes })
    );
    assert_eq!(
        (Refusal::MoreBytes.number(), Refusal::MoreBytes.to_string().is_empty()),
        (8, false)
    );
}

/// The lines of a text, each with whether it is blank: its text is all ASCII blank, which the ends of lines are too.
fn blanks(text: &[u8]) -> Vec<bool> {
    text.split_inclusive(|&byte| byte == b'\n')
        .map(|line| line.iter().all(u8::is_ascii_whitespace))
        .collect()
}

/// Document 02: "If they aren't all, the first line is taken as torn and proves nothing; the answer is given exactly when, behind
/// that line, a blank line has a non-blank one somewhere below it."
fn is_enough(tail: &[u8], whole: bool) -> bool {
    let lines = blanks(tail);
    let behind = lines.get(1..).unwrap_or(&[]);
    whole || (0..behind.len()).any(|k| behind[k] && behind[k..].contains(&false))
}

/// Document 02: "counted upward from the last through the blank line above the paragraph, or through the top of a whole body".
fn looked_at(tail: &[u8]) -> usize {
    let lines = blanks(tail);
    let upward = || lines.iter().rev();
    let below = upward().take_while(|&&blank| blank).count();
    let paragraph = upward().skip(below).take_while(|&&blank| !blank).count();
    lines.len().min(below + paragraph + 1)
}

/// The full walk of a body, told from the end: the numbers count upward from its last line.
fn walked(body: &[u8]) -> (Vec<Record>, Vec<u8>) {
    let (mut records, bytes) = stepped(body, BodyRef::from_bytes(body).unwrap().cursor());
    let lines = blanks(body).len();
    let told = |part: &Range<usize>| body.len() - part.start..body.len() - part.end;
    for record in &mut records {
        record.token = told(&record.token);
        if let Place::Message(part) = &record.value {
            record.value = Place::Message(told(part));
        }
        record.line = lines + 1 - record.line;
    }
    (records, bytes)
}

/// Holds each tail of a body, and the body, to the full walk, or to refusal 8. How many tails answered, and how many did not.
fn hold_tails(body: &[u8]) -> (usize, usize) {
    let (table, out) = walked(body);
    assert!(table.windows(2).all(|pair| pair[0].line > pair[1].line));
    let mut counts = (0, 0);
    for cut in 0..=body.len() {
        let tail = &body[cut..];
        for whole in [false, true] {
            let call = |table: &mut [Record], out: &mut [u8]| list_foot(tail, whole, table, out);
            if !is_enough(tail, whole) {
                assert_eq!(lent(9, 9, call).0, Err(Refusal::MoreBytes), "{}", tail.escape_ascii());
                counts.1 += 1;
            } else if whole && cut > 0 {
                // Another body: held when it is generated, but for its answer.
                assert!(lent(64, 999, call).0.is_ok(), "{}", tail.escape_ascii());
            } else {
                hold(foot(table.len(), out.len(), looked_at(tail)), &table, &out, call);
                counts.0 += 1;
            }
        }
    }
    counts
}

#[test]
fn every_tail_of_the_journal() {
    for entry in journal() {
        let (enough, not) = hold_tails(&entry);
        assert!(enough > 0 && not > 0, "{}", entry.escape_ascii());
    }
}

/// What the generated bodies are made of.
const PIECES: [&[u8]; 8] = [
    b"x\n",
    b"\n",
    b" \r\n",
    b"A: b\n",
    b"Signed-off-by: c\r",
    b" d\n",
    b"\x0b\n",
    b"E:",
];

#[test]
fn every_tail_of_generated_bodies() {
    let mut counts = (0, 0);
    for body in (0..5).flat_map(|len| generated(&PIECES, len)) {
        let (enough, not) = hold_tails(&body);
        counts = (counts.0 + enough, counts.1 + not);
    }
    assert!(counts.0 > 10_000 && counts.1 > 10_000, "{counts:?}");
}

/// A tail that is refused proves nothing: below one front or another the walks differ, unless no front can change them.
#[test]
fn what_is_refused_is_open() {
    for tail in (0..5).flat_map(|len| generated(&PIECES, len)) {
        if !is_enough(&tail, false) {
            let below = |front: &[u8]| walked(&[front, &tail[..]].concat());
            let signed = b"Signed-off-by: c\n".repeat(4);
            let fronts = [b"", &b"x"[..], b"A: b\n\n", &signed, &signed[..signed.len() - 1]];
            let walks = fronts.map(below);
            assert!(walks.iter().any(|walk| *walk != walks[0]), "{}", tail.escape_ascii());
        }
    }
}

#[test]
fn records_are_turned_around() {
    let body = b"x\n\nA: b\nC: d\n e\n";
    let (_, table, out) = lent(2, 9, |table, out| list_foot(body, true, table, out));
    let fronts: Vec<Record> = table.iter().map(|record| record.from_front(body.len())).collect();
    let (walked, bytes) = stepped(body, BodyRef::from_bytes(body).unwrap().cursor());
    for (front, walked) in fronts.iter().zip(&walked) {
        assert_eq!((&front.token, &front.value), (&walked.token, &walked.value));
        assert_eq!(front.ending, walked.ending);
    }
    assert_eq!((fronts.len(), out), (walked.len(), bytes));
}

#[test]
fn the_example_reads_no_more_than_it_needs() {
    let foot = b"\n\nVehicle: 7\nRecords: 318,\n 22 late\n";
    let text = b"The aerial on stand three drops out.\n".repeat(10_000);
    let note = [&text[..], &foot[..]].concat();
    let read = example::read_foot(&mut File::new(&note)).unwrap();
    assert_eq!(
        read.trailers,
        [
            ("Vehicle".into(), "7".into()),
            ("Records".into(), "318, 22 late".into())
        ]
    );
    assert_eq!((read.bytes, read.lines), (example::FIRST, 4));

    // No blank line: all of it is read.
    let read = example::read_foot(&mut File::new(&text)).unwrap();
    assert_eq!((read.trailers.len(), read.bytes, read.lines), (0, text.len(), 10_000));

    let many = [&b"\n\n"[..], &b"A: b,\n c\n".repeat(1_000)].concat();
    let note = [&text[..], &many].concat();
    assert_eq!(example::read_foot(&mut File::new(&note)).unwrap().trailers.len(), 1_000);
    assert!(example::read_foot(&mut File::new(b"")).unwrap().trailers.is_empty());
}

#[test]
fn the_example_reads_a_file() {
    let path = env::temp_dir().join(format!("sluicepod-foot-{}", process::id()));
    fs::write(&path, b"All well.\n\nVehicle: 7\n").unwrap();
    let read = example::read_foot(&mut fs::File::open(&path).unwrap());
    fs::remove_file(&path).unwrap();
    assert_eq!(read.unwrap().trailers, [("Vehicle".into(), "7".into())]);
}
