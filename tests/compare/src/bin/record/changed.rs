//! Small lists in which one byte of an answer is wrong, each with a name that says which. The program must see each: that
//! shows that it compares.

use crate::layout::{answers, bytes, two_bytes, ANSWERS};

/// The messages of each list. Of the second, in which a byte is changed, every kind of answer gives something.
const MESSAGES: [&[u8]; 2] = [
    b"Acked-by : A",
    b"title\n\nx\n\nA: b\nSigned-off-by: c,\n d\ny\nAcked-by: e\n",
];

/// Whose turn it is among the names that are looked up: `a`, which finds the first trailer.
const TURN: usize = 1;

/// What is wrong, in which answer, and in which of its bytes, counted from its front or, below 0, from its end.
const CHANGES: &[(&str, usize, isize)] = &[
    ("the title's end", 0, 0),
    ("the body's start", 0, 1),
    ("that the title's summary is a part", 1, 0),
    ("where that part starts", 1, 1),
    ("where that part ends", 1, 2),
    ("how long the message's summary is", 2, 1),
    ("the last byte of the message's summary", 2, -1),
    ("where the message's walk begins", 3, 0),
    ("where it goes on behind its last trailer", 3, -2),
    ("the block start", 4, 0),
    ("that there is a trailer", 5, 0),
    ("where its token starts", 5, 1),
    ("where its token ends", 5, 2),
    ("where its value starts", 5, 4),
    ("what its token is", 5, 6),
    ("where the walk goes on behind it", 5, 7),
    ("that there is no other trailer", 5, -1),
    ("the last byte of the sign-off's value", 6, 8),
    ("that there is no other author", 6, -1),
    ("where the first block's message ends", 7, 1),
    ("where the first block ends", 7, 2),
    ("that there is no other block", 7, -1),
    ("that the name is found", 8, 3),
    ("where its trailer's value ends", 8, 8),
    ("what the whole message is as a token", 9, 0),
];

/// How many lists, in two bytes, and each of them behind its name; and what the program prints of them.
pub fn lists() -> (Vec<u8>, String) {
    let plain = MESSAGES.map(|message| answers(message, TURN));
    let mut lists = vec![("nothing", list(&plain), "2 messages agree".to_string())];
    for &(name, answer, at) in CHANGES {
        let mut changed = plain.clone();
        let bytes = &mut changed[1][answer];
        let at = usize::try_from(at).unwrap_or(bytes.len() - at.unsigned_abs());
        bytes[at] += 1;
        lists.push((name, list(&changed), format!("message 1 differs: {}", ANSWERS[answer])));
    }
    let whole = list(&plain);
    let short = whole[..whole.len() - 1].to_vec();
    lists.push(("the list's last byte, cut off", short, format!("message 1 differs: {}", ANSWERS[9])));
    let long = [&whole[..], &[0]].concat();
    lists.push(("a byte behind the list", long, "the list does not end behind its last message".to_string()));

    let (mut out, mut printed) = (Vec::new(), String::new());
    two_bytes(&mut out, lists.len());
    for (name, list, says) in &lists {
        bytes(&mut out, name.as_bytes());
        bytes(&mut out, list);
        printed += &format!("{name}: {says}\n");
    }
    (out, printed)
}

fn list(answers: &[[Vec<u8>; 10]; 2]) -> Vec<u8> {
    let mut out = Vec::new();
    two_bytes(&mut out, MESSAGES.len());
    for (message, answers) in MESSAGES.iter().zip(answers) {
        bytes(&mut out, message);
        out.extend(answers.concat());
    }
    out
}
