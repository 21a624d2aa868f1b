//! Well-behaved messages: a title, text and trailers as people write them, every line with its LF, no blank line at the end. Of
//! these the port and Git write the same bytes.

use std::{io, ops::ControlFlow};

use compare::{additions::ours, git::Git, inputs::Alphabet, rng::Rng};

/// Every sequence of some of these lines below a title, and longer ones at random.
const LINES: Alphabet = Alphabet {
    rule: "well-behaved messages",
    pieces: &[
        b"\n",
        b"x\n",
        b"A: b\n",
        b"Signed-off-by: s\n",
        b"(cherry picked from commit 1)\n",
        b" c\n",
    ],
    depth: 5,
};
const RANDOM: usize = 4_000;
const MOST_LINES: usize = 14;

const TRAILERS: &[(&str, &str)] = &[
    ("A", "v"),
    ("Offload-state", "complete"),
    ("Signed-off-by", "M. Okafor <m@depot.example>"),
];

/// How many of the new messages are not Git's.
pub fn run(git: &Git, seed: u64) -> io::Result<usize> {
    let messages = messages(seed);
    let mut failures = 0;
    for (token, value) in TRAILERS {
        let theirs = git.add_all(&messages, &format!("{token}: {value}"))?;
        for (message, theirs) in messages.iter().zip(theirs) {
            let ours = ours(message, token.as_bytes(), value.as_bytes());
            if ours.as_ref() != Ok(&theirs) {
                failures += 1;
                if failures <= 10 {
                    println!(
                        "additions: `{}`: ours {ours:?}, Git `{}`",
                        message.escape_ascii(),
                        theirs.escape_ascii()
                    );
                }
            }
        }
    }
    println!(
        "additions: {} well-behaved messages and {} trailers beside Git",
        messages.len(),
        TRAILERS.len()
    );
    Ok(failures)
}

fn messages(seed: u64) -> Vec<Vec<u8>> {
    let mut messages = Vec::new();
    let mut add = |lines: &[u8]| {
        let message = [b"Offload of bus 7\n", lines].concat();
        if !message.ends_with(b"\n\n") {
            messages.push(message);
        }
    };
    let _ = LINES.each(LINES.depth, &mut |lines| {
        add(lines);
        ControlFlow::Continue(())
    });
    let mut rng = Rng::new(seed);
    for _ in 0..RANDOM {
        let lines: Vec<&[u8]> = (0..rng.below(MOST_LINES)).map(|_| rng.pick(LINES.pieces)).collect();
        add(&lines.concat());
    }
    messages
}
