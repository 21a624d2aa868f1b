//! Are there departures that the table does not know?
//!
//! Each class of the table is undone in the message, so that the original reads what Git reads. Random messages full of
//! what parts the two must then be answered alike.

use std::io;

use compare::{
    answers::Trailer,
    git::{printed, Git},
    original,
    rng::Rng,
};

const PIECES: &[&[u8]] = &[
    b"\n",
    b"\n",
    b"\n",
    b"\n\n",
    b"\r\n",
    b"\r",
    b" ",
    b"\t",
    b"\n ",
    b"\n\t",
    b"A:",
    b"\nA: b",
    b"A-1 : ",
    b"x",
    b"\nx",
    b":",
    b"-",
    b"=",
    b"\n---",
    b"\n--- ",
    b"#",
    b"\n#",
    b"\nSigned-off-by: ",
    b"\nsigned-off-by: ",
    b"\n(cherry picked from commit ",
    b"\nConflicts:",
    b"\nConflicts:\n\tf\n",
    b"\n# ------------------------ >8 ------------------------\n",
    b"\x0b",
    b"\x0c",
    b"\0",
    b"\xc2\xa0",
    b"\xe3\x80\x80",
    b"\xff",
];

const SCISSORS: &[u8] = b"# ------------------------ >8 ------------------------\n";

const FRONTS: &[&[u8]] = &[b"", b"t", b"t\n\n", b"\n\n", b"t\r\n\r\nx\n\n"];

pub fn run(git: &Git, messages: usize, seed: usize) -> io::Result<usize> {
    let mut rng = Rng::new(seed as u64);
    let mut failures = 0;
    let mut parted = 0;
    let mut with_trailers = 0;
    for _ in 0..messages.div_ceil(1000) {
        let some: Vec<Vec<u8>> = (0..1000).map(|_| message_that_ends(&mut rng)).collect();
        for (message, answer) in some.iter().zip(git.parse_all(&some, &[])?) {
            with_trailers += usize::from(!answer.is_empty());
            parted += usize::from(crate::original_prints(message, crate::ReadAs::Message) != answer);
            let body = undone(message);
            let trailers = original::trailers(&body);
            let answer = plain(&answer);
            let alike = printed_unfolded_by_git(&body, &trailers) == answer
                && squeezed(&printed(&body, &trailers)) == squeezed(&answer);
            if !alike {
                failures += 1;
                println!("no class of the table: `{}`", message.escape_ascii());
                println!(
                    "  the original, classes undone: `{}`",
                    printed(&body, &trailers).escape_ascii()
                );
                println!("  Git: `{}`", answer.escape_ascii());
            }
        }
    }
    println!(
        "departures: {messages} random messages, {with_trailers} with trailers; the original and Git parted on {parted}, \
         outside the classes on {failures}"
    );
    Ok(failures)
}

/// Class 13 cannot be undone: on a message with a scissors line below a divider Git does not end.
fn message_that_ends(rng: &mut Rng) -> Vec<u8> {
    loop {
        let message = message(rng);
        let read = above_nul(&message);
        let below = &read[above_divider(read).len()..];
        if !lines(below).any(|line| line == SCISSORS) {
            return message;
        }
    }
}

fn message(rng: &mut Rng) -> Vec<u8> {
    // Few kinds of pieces in one message, so that it does not hold every mark at once.
    let kinds: Vec<&[u8]> = (0..2 + rng.below(8)).map(|_| rng.pick(PIECES)).collect();
    let mut message = rng.pick(FRONTS).to_vec();
    for _ in 0..rng.below(20) {
        message.extend_from_slice(if rng.once_in(3) {
            rng.pick(PIECES)
        } else {
            rng.pick(&kinds)
        });
    }
    message
}

/// The body that Git reads, written so that the original reads it in the same way.
fn undone(message: &[u8]) -> Vec<u8> {
    let message = above_nul(message);
    let message = above_divider(message);
    let message = above_foot(message);
    plain(&without_comments(below_title(message)))
}

fn lines(text: &[u8]) -> impl Iterator<Item = &[u8]> {
    text.split_inclusive(|&byte| byte == b'\n')
}

fn is_white(byte: u8) -> bool {
    matches!(byte, b' ' | b'\t' | b'\n' | b'\r')
}

fn is_blank(line: &[u8]) -> bool {
    line.iter().all(|&byte| is_white(byte))
}

/// Class 11.
fn above_nul(message: &[u8]) -> &[u8] {
    message.split(|&byte| byte == 0).next().unwrap_or(message)
}

/// Class 1.
fn above_divider(message: &[u8]) -> &[u8] {
    let mut at = 0;
    for line in lines(message) {
        if line.starts_with(b"---") && line.get(3).is_some_and(|&byte| is_white(byte)) {
            break;
        }
        at += line.len();
    }
    &message[..at]
}

/// Classes 6 and 7, and of class 5 the comment lines at the end.
fn above_foot(message: &[u8]) -> &[u8] {
    let mut at = 0;
    // Where the run of lines to be left out begins, and whether a `Conflicts:` line is in it.
    let mut run = None;
    let mut conflicts = false;
    for line in lines(message) {
        if line == SCISSORS {
            break;
        }
        if line.starts_with(b"#") || line == b"\n" {
            run = run.or(Some(at));
        } else if line == b"Conflicts:\n" {
            run = run.or(Some(at));
            conflicts = true;
        } else if !(conflicts && line.starts_with(b"\t")) {
            run = None;
            conflicts = false;
        }
        at += line.len();
    }
    &message[..run.unwrap_or(at)]
}

/// Classes 3, 4 and 12: the title ends at the first blank line, whatever is blank in it and above it.
fn below_title(message: &[u8]) -> &[u8] {
    let mut at = 0;
    for line in lines(message) {
        at += line.len();
        if !line.starts_with(b"#") && is_blank(line) {
            break;
        }
    }
    &message[at..]
}

/// Class 5: a comment line counts for nothing, and the indented lines directly below it count as others.
fn without_comments(body: &[u8]) -> Vec<u8> {
    let mut kept = Vec::new();
    let mut below_comment = false;
    for line in lines(body) {
        if line.starts_with(b"#") {
            below_comment = true;
        } else if below_comment && is_white(line[0]) && !is_blank(line) {
            kept.extend_from_slice(b"x\n");
        } else {
            below_comment = false;
            kept.extend_from_slice(line);
        }
    }
    kept
}

/// Classes 8 and 9: bytes that are white space to one of the two become bytes that are none to both.
fn plain(text: &[u8]) -> Vec<u8> {
    text.iter()
        .map(|&byte| match byte {
            b'\x0b' => 1,
            b'\x0c' => 2,
            0x80.. => 3,
            other => other,
        })
        .collect()
}

/// Class 10: Git's own unfolding of the raw values. An LF and all that is white behind it become one space.
fn printed_unfolded_by_git(body: &[u8], trailers: &[Trailer]) -> Vec<u8> {
    let mut out = Vec::new();
    for trailer in trailers {
        let behind_token = &body[trailer.token.end..trailer.next];
        let colon = behind_token.iter().position(|&byte| byte == b':').expect("a colon");
        let mut value = Vec::new();
        let mut raw = behind_token[colon + 1..].iter().copied().peekable();
        while let Some(byte) = raw.next() {
            if byte == b'\n' {
                while raw.next_if(|&byte| is_white(byte)).is_some() {}
                value.push(b' ');
            } else {
                value.push(byte);
            }
        }
        out.extend_from_slice(trailer.token.of(body));
        out.extend_from_slice(b": ");
        out.extend_from_slice(value.trim_ascii());
        out.push(b'\n');
    }
    out
}

/// Class 10 again, for the original's own values: blanks side by side are one space.
fn squeezed(answer: &[u8]) -> Vec<u8> {
    let mut out: Vec<u8> = Vec::new();
    for &byte in answer {
        let byte = if matches!(byte, b'\t' | b'\r') { b' ' } else { byte };
        if byte != b' ' || out.last() != Some(&b' ') {
            out.push(byte);
        }
    }
    out
}
