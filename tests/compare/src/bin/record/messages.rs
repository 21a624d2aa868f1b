//! The messages of the list: the worked examples, those of the departures, short ones over every alphabet, forms near to
//! what a rule names, random ones near every boundary, and a few long ones. They are the same each time, and none twice.

#[allow(dead_code)]
#[path = "../departures/table.rs"]
mod table;

use std::{collections::HashSet, ops::ControlFlow};

use compare::{
    inputs::{
        damage, long, near_white, near_words, structured, Alphabet, ALPHABETS, LONG_SHAPES, NO_FORMS, TOKENS, WHITE,
    },
    rng::Rng,
};

const SEED: u64 = 1;

/// The longest random message.
const SHORT: usize = 160;

/// The worked examples of document 01 in their order, and the lister's message.
const CASES: &[&[u8]] = &[
    b"",
    b"a\r\n\r\n",
    b"a\n\r\nb",
    b"a\r\n\r\nb",
    b"a \n  b",
    b"x\r\n\r\nA: b",
    b"Signed-off-by: a\nx\ny\nz",
    b"Signed-off-by: a\nx\ny\nz\nw",
    b"Signed-off-by:a\nx",
    b"(cherry picked from commit 1)",
    b" c\nA: b",
    b"A: b\n\t\x0b\n c",
    b"Acked-by : A",
    b":x",
    b"A: b\nSigned-off-by: c\nx\nD: e\n",
    b"t\n\nx\n\nVehicle: 7\nRecords: 318,\n 22 late\n",
];

pub fn all() -> Vec<Vec<u8>> {
    let mut rng = Rng::new(SEED);
    let mut messages: Vec<Vec<u8>> = CASES.iter().map(|case| case.to_vec()).collect();
    messages.extend(table::ROWS.iter().map(|row| row.message.to_vec()));
    messages.extend(table::CLAIMS.iter().map(|claim| claim.input.to_vec()));
    for alphabet in ALPHABETS {
        short(&mut messages, alphabet, 140);
        longer(&mut messages, alphabet, &mut rng, 60);
    }
    tokens(&mut messages);
    white(&mut messages);
    quarters(&mut messages);
    pick(&mut messages, near_words(), &mut rng, 200);
    pick(&mut messages, near_white(), &mut rng, 120);
    random(&mut messages, &mut rng, 300);
    for (at, &shape) in LONG_SHAPES.iter().enumerate() {
        messages.push(long(shape, 300 + at));
        if !shape.foot.is_empty() {
            messages.push(long(shape, 3_000));
        }
    }
    let mut seen = HashSet::new();
    messages.retain(|message| seen.insert(message.clone()));
    messages
}

/// All inputs over an alphabet, as deep as gives no more than `most`.
fn short(messages: &mut Vec<Vec<u8>>, alphabet: &Alphabet, most: usize) {
    let inputs = |depth| {
        let mut inputs = Vec::new();
        let _ = alphabet.each(depth, &mut |input| {
            inputs.push(input.to_vec());
            ControlFlow::Continue(())
        });
        inputs
    };
    let depth = (0..).take_while(|&depth| inputs(depth).len() <= most).last();
    messages.extend(inputs(depth.expect("the empty input fits")));
}

/// Random inputs of three to ten pieces of an alphabet.
fn longer(messages: &mut Vec<Vec<u8>>, alphabet: &Alphabet, rng: &mut Rng, inputs: usize) {
    for _ in 0..inputs {
        let pieces = 3 + rng.below(8);
        let pieces: Vec<&[u8]> = (0..pieces).map(|_| rng.pick(alphabet.pieces)).collect();
        messages.push(pieces.concat());
    }
}

/// Every byte between a token's letter and its colon, and every attribution token in three cases.
fn tokens(messages: &mut Vec<Vec<u8>>) {
    for byte in 0..=255 {
        messages.push([b'A', byte, b':', b'b'].to_vec());
    }
    for token in TOKENS {
        for spelt in [token.to_vec(), token.to_ascii_lowercase(), token.to_ascii_uppercase()] {
            messages.push([&spelt, &b": a\nB: c"[..]].concat());
            messages.push(spelt);
        }
    }
}

/// Every form of white space, and what is none, at both ends of a summary, of a value and of a folded line.
fn white(messages: &mut Vec<Vec<u8>>) {
    for form in WHITE.into_iter().chain(NO_FORMS) {
        messages.push([form, b"a", form].concat());
        messages.push([b"A:", form, b"b", form, b"\n ", form, b"c", form].concat());
    }
}

/// Last paragraphs in which n others stand against t lines of the first two kinds, around 3t = n: the recognised line
/// first or last, with an indented line below it or none, and t - 1 trailer lines or recognised ones.
fn quarters(messages: &mut Vec<Vec<u8>>) {
    for t in 1..=3 {
        for n in 3 * t - 1..=3 * t + 1 {
            for recognised in [&b"Signed-off-by: a\n"[..], b"Signed-off-by: a\n b\n"] {
                for more in [&b"A: b\n"[..], recognised] {
                    let others = [more.repeat(t - 1), b"x\n".repeat(n)].concat();
                    messages.push([recognised, &others[..]].concat());
                    messages.push([&others[..], recognised].concat());
                }
            }
        }
    }
}

fn pick(messages: &mut Vec<Vec<u8>>, from: Vec<Vec<u8>>, rng: &mut Rng, inputs: usize) {
    for _ in 0..inputs {
        messages.push(from[rng.below(from.len())].clone());
    }
}

/// Random messages that are short enough, and a damaged copy of each.
fn random(messages: &mut Vec<Vec<u8>>, rng: &mut Rng, inputs: usize) {
    let mut left = inputs;
    while left > 0 {
        let mut message = structured(rng);
        if message.len() <= SHORT {
            messages.push(message.clone());
            damage(rng, &mut message);
            messages.push(message);
            left -= 1;
        }
    }
}
