//! Inputs on which two readers are compared: all short ones over an alphabet for each rule, forms that are near to what
//! a rule names, random messages near every boundary, damaged copies of them, and inputs around the limit.
//! `record` takes its list from here too: what it uses, changed, changes the list.

use std::ops::ControlFlow;

use crate::{answers::LIMIT, rng::Rng};

/// All inputs that are up to `depth` pieces.
pub struct Alphabet {
    pub rule: &'static str,
    pub pieces: &'static [&'static [u8]],
    pub depth: usize,
}

/// The depths give some 900,000 inputs, and one piece more about six times as many.
pub const ALPHABETS: &[Alphabet] = &[
    Alphabet {
        rule: "line ends, title and body",
        pieces: &[b"a", b"\n", b"\r", b" "],
        depth: 8,
    },
    Alphabet {
        rule: "blanks and summaries",
        pieces: &[b"a", b" ", b"\t", b"\n", b"\x0b", b"\x0c", b"\r"],
        depth: 6,
    },
    Alphabet {
        rule: "bytes of white space",
        pieces: &[
            b"a", b"\n", b"\xc2", b"\xe1", b"\xe2", b"\xe3", b"\x80", b"\x85", b"\x9a", b"\xa0", b"\xa8",
        ],
        depth: 5,
    },
    Alphabet {
        rule: "forms of white space",
        pieces: &[
            b"a",
            b"\n",
            b" ",
            b"A:",
            b"\xc2\x85",
            b"\xe1\x9a\x80",
            b"\xe2\x80\xa9",
            b"\xe3\x80\x80",
        ],
        depth: 5,
    },
    Alphabet {
        rule: "the trailer line",
        pieces: &[b"A", b"z", b"0", b"-", b"_", b" ", b"\t", b":", b"\n"],
        depth: 5,
    },
    Alphabet {
        rule: "folds",
        pieces: &[b"A:", b"b", b" ", b"\n", b"\r", b"\x0b", b"\x0c"],
        depth: 6,
    },
    Alphabet {
        rule: "the last paragraph, line by line",
        pieces: &[
            b"Signed-off-by: a\n",
            b"(cherry picked from commit 1)\n",
            b"A: b\n",
            b"x\n",
            b" c\n",
            b"\n",
        ],
        depth: 6,
    },
    Alphabet {
        rule: "the last paragraph, bit by bit",
        pieces: &[b"Signed-off-by: ", b"Signed-off-by:", b"A:", b"x", b" ", b"\n", b"\r\n"],
        depth: 6,
    },
    Alphabet {
        rule: "3t against n",
        pieces: &[b"Signed-off-by: a\n", b"x\n"],
        depth: 12,
    },
    Alphabet {
        rule: "blocks",
        pieces: &[b"Signed-off-by: s\n", b"A:b\n", b"x\n", b" c\n", b"\x0b\n", b"\r\n"],
        depth: 6,
    },
];

impl Alphabet {
    /// Visits every input of at most `depth` pieces, each before those that go on from it.
    pub fn each(&self, depth: usize, visit: &mut impl FnMut(&[u8]) -> ControlFlow<()>) -> ControlFlow<()> {
        self.go_on(&mut Vec::new(), depth, visit)
    }

    fn go_on(
        &self,
        input: &mut Vec<u8>,
        depth: usize,
        visit: &mut impl FnMut(&[u8]) -> ControlFlow<()>,
    ) -> ControlFlow<()> {
        visit(input)?;
        if depth > 0 {
            for piece in self.pieces {
                let len = input.len();
                input.extend_from_slice(piece);
                self.go_on(input, depth - 1, visit)?;
                input.truncate(len);
            }
        }
        ControlFlow::Continue(())
    }
}

/// The UTF-8 forms of Unicode's White_Space.
pub const WHITE: [&[u8]; 25] = [
    b"\t",
    b"\n",
    b"\x0b",
    b"\x0c",
    b"\r",
    b" ",
    b"\xc2\x85",
    b"\xc2\xa0",
    b"\xe1\x9a\x80",
    b"\xe2\x80\x80",
    b"\xe2\x80\x81",
    b"\xe2\x80\x82",
    b"\xe2\x80\x83",
    b"\xe2\x80\x84",
    b"\xe2\x80\x85",
    b"\xe2\x80\x86",
    b"\xe2\x80\x87",
    b"\xe2\x80\x88",
    b"\xe2\x80\x89",
    b"\xe2\x80\x8a",
    b"\xe2\x80\xa8",
    b"\xe2\x80\xa9",
    b"\xe2\x80\xaf",
    b"\xe2\x81\x9f",
    b"\xe3\x80\x80",
];

/// Overlong forms of white space, a surrogate, and what no UTF-8 holds.
pub const NO_FORMS: [&[u8]; 12] = [
    b"\xc0\xa0",
    b"\xc0\x8a",
    b"\xc0\x8d",
    b"\xe0\x80\xa0",
    b"\xe0\x82\x85",
    b"\xe0\x82\xa0",
    b"\xf0\x80\x80\xa0",
    b"\xf0\x82\x80\x80",
    b"\xf0\x83\x80\x80",
    b"\xed\xa0\x80",
    b"\xf5\x80\x80\x80",
    b"\xff\xc2",
];

/// The two prefixes that carry a block.
pub const PREFIXES: [&[u8]; 2] = [b"Signed-off-by: ", b"(cherry picked from commit "];

/// The six attribution tokens.
pub const TOKENS: [&[u8]; 6] = [
    b"Signed-off-by",
    b"Co-authored-by",
    b"Assisted-by",
    b"Acked-by",
    b"Reviewed-by",
    b"Tested-by",
];

/// Everything that is near to a form of white space, each where it can be trimmed and where it cannot.
pub fn near_white() -> Vec<Vec<u8>> {
    let mut forms: Vec<Vec<u8>> = NO_FORMS.iter().map(|form| form.to_vec()).collect();
    for code in (0..=0x3100).chain([0xfeff, 0xfffd, 0x1_0000, 0x1_2000, 0x1_3000]) {
        if let Some(point) = char::from_u32(code) {
            forms.push(point.to_string().into_bytes());
        }
    }
    for form in WHITE {
        for cut in 1..form.len() {
            forms.push(form[..cut].to_vec());
            forms.push(form[cut..].to_vec());
        }
        forms.extend(near(form));
    }
    let mut inputs = Vec::new();
    for form in &forms {
        for (front, end) in [
            ("", ""),
            ("a", ""),
            ("", "a"),
            ("a", "\nb"),
            ("A:", "b"),
            ("A: b", ""),
            ("A:b\n ", "c"),
            ("A:", "\n b"),
            ("A:b\n", ""),
        ] {
            inputs.push([front.as_bytes(), form, end.as_bytes()].concat());
        }
        // Two forms side by side: one must not be read across both.
        inputs.push([form, &b"\xe2\x80\x80"[..]].concat());
        inputs.push([&b"\xe2\x80\x80"[..], form].concat());
    }
    inputs
}

/// Everything that is near to a prefix or a token, with a line below it that shows whether it carried the block.
pub fn near_words() -> Vec<Vec<u8>> {
    let mut words = Vec::new();
    for word in PREFIXES.into_iter().chain(TOKENS) {
        words.push(word.to_vec());
        words.push(word.to_ascii_lowercase());
        words.push(word.to_ascii_uppercase());
        words.extend((0..word.len()).map(|cut| word[..cut].to_vec()));
        words.extend(near(word));
    }
    let mut inputs = Vec::new();
    for word in &words {
        for end in ["", ": v", ":v\nx", ": v\nx", " : v", "v\nx\ny\nz", "v\nx\ny\nz\nw"] {
            inputs.push([word, end.as_bytes()].concat());
            inputs.push([b"t\n\n", &word[..], end.as_bytes()].concat());
        }
    }
    inputs
}

/// What a search by words, runs or blocks has to see wherever it stands: line ends, two of them, blanks before one, a separator.
const EDGES: &[&[u8]] = &[
    b"\n",
    b"\n\n",
    b"\r\n\r\n",
    b"\n\r\n",
    b"\r\n\n",
    b"\n\r",
    b" \n",
    b"\t\n\n",
    b"\x0b\n",
    b": ",
];

/// The longest way to one of them: two blocks of 256 bytes, and more than a run.
const FARTHEST: usize = 546;

/// Each of them at every place up to there: behind text that begins a message, before text that ends one, and before blanks, with blank lines
/// below them too.
pub fn edges() -> Vec<Vec<u8>> {
    let mut out = Vec::new();
    for &edge in EDGES {
        for n in 0..=FARTHEST {
            let (text, blanks) = (&vec![b'x'; n][..], &vec![b' '; n][..]);
            out.push([text, edge, b"y\n\nA: b\n c\n"].concat());
            out.push([b"t\nu", edge, text, b"\n\nA: b"].concat());
            out.push([b"t\n\nA: b", edge, text].concat());
            out.push([b"t\n\nA: b", edge, blanks].concat());
            out.push([b"t\n\nA: b", edge, blanks, b"\n\t\n"].concat());
        }
    }
    out
}

/// The copies of a word in which one byte is another, is missing or stands twice.
fn near(word: &[u8]) -> Vec<Vec<u8>> {
    let mut copies = Vec::new();
    for at in 0..word.len() {
        for other in [
            word[at] ^ 0x20,
            word[at] ^ 0x80,
            word[at].wrapping_add(1),
            word[at].wrapping_sub(1),
            b' ',
            b'\t',
        ] {
            let mut copy = word.to_vec();
            copy[at] = other;
            copies.push(copy);
        }
        copies.push([&word[..at], &word[at + 1..]].concat());
        copies.push([&word[..=at], &word[at..]].concat());
    }
    copies
}

const TITLE_LINES: &[&[u8]] = &[
    b"t",
    b"a b",
    b" a",
    b"a \t",
    b"A: b",
    b"\x0b",
    b"",
    b" ",
    b"a\rb",
    b"\xc2\xa0t",
];
const UNDER_TITLE: &[&[u8]] = &[
    b"\n\n",
    b"\n\n",
    b"\n\n",
    b"\r\n\r\n",
    b"\n\r\n",
    b"\r\n\n",
    b"\n \n",
    b"\n\r\r\n",
    b"\n\x0b\n",
    b"\n",
    b"",
];
const BLANK_LINES: &[&[u8]] = &[b"", b"", b"", b" ", b"\t", b"\x0c", b"\r", b" \t\x0c \r"];
const NEARLY_BLANK_LINES: &[&[u8]] = &[b"\x0b", b" \x0b", b"\xc2\xa0", b"\xe3\x80\x80", b"\x85", b"\0"];
const RECOGNISED_LINES: &[&[u8]] = &[
    b"Signed-off-by: A U Thor <a@example.com>",
    b"Signed-off-by: ",
    b"Signed-off-by: \x0b b ",
    b"(cherry picked from commit 1)",
    b"(cherry picked from commit ",
];
const TRAILER_LINES: &[&[u8]] = &[
    b"A: b",
    b"A:",
    b"A :",
    b"A-1\t : b  c \t",
    b"Signed-off-by:b",
    b"signed-off-by: b",
    b"SIGNED-OFF-BY : b",
    b"Co-authored-by: c",
    b"Assisted-by: d",
    b"acked-BY: e",
    b"Reviewed-by: f",
    b"Tested-by: g",
    b"Vehicle: 7",
    b"A: \xc2\xa0b\xe2\x80\xa9",
    b"A:\x0bb\x0c",
    b"A: b: c",
    b"-: \xe2\x80",
];
const OTHER_LINES: &[&[u8]] = &[
    b"x",
    b"a line of text.",
    b":x",
    b"A b: c",
    b"A_b: c",
    b"\x0bA: b",
    b"\xc2\xa0A: b",
    b"(cherry picked from commit",
    b"(Cherry picked from commit 1)",
    b"---",
    b"# c",
    b"=",
];
const INDENTED_LINES: &[&[u8]] = &[
    b" c",
    b"\tc",
    b"\x0cc",
    b"\rc",
    b"  c d  ",
    b" \x0b",
    b" \xe3\x80\x80",
    b"\t\xc2",
    b" A: b",
    b" Signed-off-by: b",
];
const LINE_ENDS: &[&[u8]] = &[b"\n", b"\n", b"\n", b"\n", b"\r\n", b"\r\n", b"\r\r\n"];
const LAST_ENDS: &[&[u8]] = &[b"", b"\n", b"\r\n", b"\r", b"\r\r", b" ", b"\x0b"];

/// A message or a body near the boundaries of the rules.
pub fn structured(rng: &mut Rng) -> Vec<u8> {
    let mut out = Vec::new();
    if !rng.once_in(3) {
        lines(rng, &mut out, 1, TITLE_LINES);
        out.truncate(out.len() - usize::from(out.ends_with(b"\n")));
        if rng.once_in(4) {
            out.push(b'\n');
            lines(rng, &mut out, 2, TITLE_LINES);
        }
        out.extend_from_slice(rng.pick(UNDER_TITLE));
    }
    for _ in 0..rng.below(3) {
        paragraph(rng, &mut out);
        blank_lines(rng, &mut out, 1);
    }
    paragraph(rng, &mut out);
    blank_lines(rng, &mut out, 0);
    if rng.once_in(2) {
        // Another end of the input in place of the last LF.
        out.truncate(out.len() - usize::from(out.ends_with(b"\n")));
        out.extend_from_slice(rng.pick(LAST_ENDS));
    }
    out
}

fn line(rng: &mut Rng, out: &mut Vec<u8>, from: &[&[u8]]) {
    out.extend_from_slice(rng.pick(from));
    out.extend_from_slice(rng.pick(LINE_ENDS));
}

fn lines(rng: &mut Rng, out: &mut Vec<u8>, most: usize, from: &[&[u8]]) {
    for _ in 0..rng.below(most + 1) {
        line(rng, out, from);
    }
}

fn blank_lines(rng: &mut Rng, out: &mut Vec<u8>, least: usize) {
    for _ in 0..least + rng.below(3) {
        let from = if rng.once_in(12) {
            NEARLY_BLANK_LINES
        } else {
            BLANK_LINES
        };
        line(rng, out, from);
    }
}

/// A paragraph whose n others are near three times its t lines of the first two kinds, in any order, with indented
/// lines between them.
fn paragraph(rng: &mut Rng, out: &mut Vec<u8>) {
    let t = rng.below(5);
    let n = match rng.below(6) {
        0 | 1 => 0,
        2 => 1,
        3 => (3 * t).saturating_sub(1),
        4 => 3 * t,
        _ => 3 * t + 1,
    };
    let recognised = if rng.once_in(3) { 0 } else { rng.below(t + 1) };
    let mut kinds: Vec<&[&[u8]]> = Vec::new();
    kinds.extend(vec![RECOGNISED_LINES; recognised]);
    kinds.extend(vec![TRAILER_LINES; t - recognised]);
    kinds.extend(vec![OTHER_LINES; n]);
    for at in (1..kinds.len()).rev() {
        kinds.swap(at, rng.below(at + 1));
    }
    let indented = rng.once_in(2);
    for kind in kinds {
        if indented && rng.once_in(5) {
            lines(rng, out, 2, INDENTED_LINES);
        }
        line(rng, out, kind);
    }
    if indented {
        lines(rng, out, 1, INDENTED_LINES);
    }
}

const DAMAGE: &[&[u8]] = &[
    b"\n",
    b"\r",
    b"\r\n",
    b" ",
    b"\t",
    b"\x0b",
    b"\x0c",
    b":",
    b"-",
    b"a",
    b"A: b",
    b"\n ",
    b"\n\n",
    b"Signed-off-by: ",
    b"\xc2\xa0",
    b"\xe2\x80",
    b"\x80",
    b"\xff",
    b"\0",
];

/// Changes an input in one to four places: a byte turned, lost or put in, a part lost or doubled, the end cut off.
pub fn damage(rng: &mut Rng, input: &mut Vec<u8>) {
    for _ in 0..1 + rng.below(4) {
        let at = rng.below(input.len() + 1);
        let end = (at + rng.below(12)).min(input.len());
        match rng.below(7) {
            0 if at < input.len() => input[at] ^= 1 << rng.below(8),
            1 if at < input.len() => {
                input.remove(at);
            }
            2 => {
                input.drain(at..end);
            }
            3 => {
                let part = input[at..end].to_vec();
                input.splice(at..at, part);
            }
            4 => input.truncate(at),
            _ => {
                let piece = rng.pick(DAMAGE);
                input.splice(at..at, piece.iter().copied());
            }
        }
    }
}

/// What `runs` puts between its runs.
const BETWEEN_RUNS: &[&[u8]] = &[
    b"\n",
    b"\n",
    b"\r\n",
    b"\n\n",
    b"\r\n\r\n",
    b"\n ",
    b"\n\t\n",
    b":",
    b": ",
    b"\nA: ",
    b"\nSigned-off-by: ",
    b"\n(cherry picked from commit ",
    b"",
];

/// The bytes of a run: plain ones, blanks, and those that differ in one bit from a byte that a rule names.
const RUN_BYTES: &[u8] = b"aaaaA-0    \t\r\n\x0b\x0c\x8a\x8d\xba\xad\xa0\x1a\x2a\x80\xe2\x00";

/// Runs of one byte of every length up to 40, so that what ends them stands at every place of a machine word.
pub fn runs(rng: &mut Rng) -> Vec<u8> {
    let mut out = Vec::new();
    for _ in 0..1 + rng.below(10) {
        let byte = RUN_BYTES[rng.below(RUN_BYTES.len())];
        let longest = if rng.once_in(2) { 3 } else { 40 };
        out.extend(vec![byte; rng.below(longest + 1)]);
        out.extend_from_slice(rng.pick(BETWEEN_RUNS));
    }
    out
}

/// A last paragraph of up to sixty lines of the first two kinds, with n others near three times as many.
pub fn crowded(rng: &mut Rng) -> Vec<u8> {
    let t = 1 + rng.below(60);
    let n = (3 * t + rng.below(3)).saturating_sub(1);
    let mut out = rng.pick(&[&b"t\n\n"[..], b"t\n\nx\n\n", b""]).to_vec();
    let (mut trailers, mut others) = (t, n);
    let mut forgiven = false; // an indented line, if it came next
    while trailers + others > 0 {
        if rng.once_in(12) && (forgiven || others > 0) {
            others -= usize::from(!forgiven);
            line(rng, &mut out, INDENTED_LINES);
            continue;
        }
        forgiven = rng.below(trailers + others) < trailers;
        let (left, from) = match forgiven {
            true if rng.once_in(2) => (&mut trailers, RECOGNISED_LINES),
            true => (&mut trailers, TRAILER_LINES),
            false => (&mut others, OTHER_LINES),
        };
        *left -= 1;
        line(rng, &mut out, from);
    }
    out
}

/// A message with forms of white space, cut and overlong ones too, put in at any place.
pub fn with_forms(rng: &mut Rng) -> Vec<u8> {
    let mut out = structured(rng);
    for _ in 0..1 + rng.below(4) {
        let form = match rng.below(3) {
            0 => rng.pick(&NO_FORMS),
            _ => rng.pick(&WHITE),
        };
        let cut = if rng.once_in(3) { rng.below(form.len()) } else { 0 };
        let at = rng.below(out.len() + 1);
        out.splice(at..at, form[cut..].iter().copied());
    }
    out
}

/// Several messages behind each other.
pub fn joined(rng: &mut Rng) -> Vec<u8> {
    let mut out = Vec::new();
    for _ in 0..2 + rng.below(12) {
        out.extend(structured(rng));
    }
    out
}

/// The kinds of random messages.
type Random = (&'static str, fn(&mut Rng) -> Vec<u8>);
const RANDOM: [Random; 4] = [
    ("runs of a byte", runs),
    ("many lines near 3t = n", crowded),
    ("with forms of white space", with_forms),
    ("several messages", joined),
];

/// A long input: a unit that is repeated between a front and a foot.
#[derive(Clone, Copy, Debug)]
pub struct Shape {
    pub name: &'static str,
    pub front: &'static [u8],
    pub unit: &'static [u8],
    pub foot: &'static [u8],
}

const fn shape(name: &'static str, front: &'static [u8], unit: &'static [u8], foot: &'static [u8]) -> Shape {
    Shape {
        name,
        front,
        unit,
        foot,
    }
}

pub const LONG_SHAPES: &[Shape] = &[
    shape("one line", b"", b"x", b""),
    shape("short lines", b"", b"x\n", b""),
    shape(
        "lines of 70 bytes",
        b"",
        b"abcdefghi abcdefghi abcdefghi abcdefghi abcdefghi abcdefghi abcdefghi\n",
        b"",
    ),
    shape("blank lines", b"", b"\n", b""),
    shape("lines of blanks", b"", b" \t\r\n", b""),
    shape("trailers", b"", b"A: b\n", b""),
    shape("trailers below a title", b"t\n\n", b"A: b\n", b""),
    shape("sign-offs below a title", b"t\n\n", b"Signed-off-by: a\n", b""),
    shape("one trailer, many folds", b"A: b\n", b" c\n", b""),
    shape("one fold after another", b"", b"A: b\n c\n", b""),
    shape("blocks", b"", b"Signed-off-by: a\nx\n", b""),
    shape("white space", b"", b"\xe2\x80\x80", b""),
    shape("a value between white space", b"A:", b"\xe3\x80\x80", b" b\n"),
    shape("title lines", b"a", b" \n b\r\n", b"\n\nA: b"),
    shape(
        "text over a foot",
        b"t\n\n",
        b"a line of text\n\n",
        b"\n\nA: b\nSigned-off-by: c\n d\n",
    ),
];

/// The input of a shape with exactly this length. The last unit may be torn; front and foot are whole if they fit.
pub fn long(shape: Shape, len: usize) -> Vec<u8> {
    let foot = &shape.foot[shape.foot.len().saturating_sub(len)..];
    let mut out = shape.front.to_vec();
    while out.len() + foot.len() < len {
        out.extend_from_slice(shape.unit);
    }
    out.truncate(len - foot.len());
    out.extend_from_slice(foot);
    out
}

/// How many random feet stand at the limit.
const FEET: usize = 30;

/// Which inputs a comparison reads.
#[derive(Clone, Debug)]
pub struct Plan {
    pub seed: u64,
    /// Pieces more than an alphabet's own depth; negative is fewer.
    pub deeper: isize,
    /// Random messages of each kind, and as many damaged ones.
    pub messages: usize,
    /// Whether inputs around the limit are read.
    pub long: bool,
}

impl Plan {
    /// Visits every input of the plan, with the name of its kind.
    pub fn each(&self, visit: &mut impl FnMut(&'static str, &[u8]) -> ControlFlow<()>) -> ControlFlow<()> {
        for input in near_words() {
            visit("near a prefix or token", &input)?;
        }
        for input in near_white() {
            visit("near white space", &input)?;
        }
        for input in edges() {
            visit("at an edge of a run", &input)?;
        }
        for alphabet in ALPHABETS {
            let depth = alphabet.depth.saturating_add_signed(self.deeper);
            alphabet.each(depth, &mut |input| visit(alphabet.rule, input))?;
        }
        let mut rng = Rng::new(self.seed);
        for _ in 0..self.messages {
            let mut input = structured(&mut rng);
            visit("structured", &input)?;
            damage(&mut rng, &mut input);
            visit("damaged", &input)?;
        }
        for (kind, random) in RANDOM {
            for _ in 0..self.messages {
                visit(kind, &random(&mut rng))?;
            }
        }
        if self.long {
            for &shape in LONG_SHAPES {
                for len in [LIMIT - 1, LIMIT, LIMIT + 1] {
                    visit("around the limit", &long(shape, len))?;
                }
            }
            for _ in 0..FEET {
                let foot = structured(&mut rng);
                let text = LONG_SHAPES[rng.below(LONG_SHAPES.len())];
                let front = long(text, LIMIT - foot.len());
                visit("a random foot at the limit", &[front, foot].concat())?;
            }
        }
        ControlFlow::Continue(())
    }
}

#[cfg(test)]
mod tests {
    use super::*;
    use crate::{
        answers::{Reading, Value},
        original,
    };

    #[test]
    fn an_alphabet_gives_each_sequence_of_pieces_once() {
        let alphabet = Alphabet {
            rule: "",
            pieces: &[b"a", b"bc"],
            depth: 2,
        };
        let mut seen = Vec::new();
        let _ = alphabet.each(2, &mut |input| {
            seen.push(input.to_vec());
            ControlFlow::Continue(())
        });
        let all: [&[u8]; 7] = [b"", b"a", b"aa", b"abc", b"bc", b"bca", b"bcbc"];
        assert_eq!(seen, all);
    }

    #[test]
    fn the_same_seed_gives_the_same_messages() {
        let messages = |seed| -> Vec<Vec<u8>> {
            let mut rng = Rng::new(seed);
            (0..50).map(|_| structured(&mut rng)).collect()
        };
        assert_eq!(messages(1), messages(1));
        assert_ne!(messages(1), messages(2));
    }

    #[test]
    fn a_long_input_has_its_length_and_its_foot() {
        for &shape in LONG_SHAPES {
            for len in [0, 1, 100, 101, 1000] {
                let input = long(shape, len);
                assert_eq!(input.len(), len);
                assert!(len < 100 || input.starts_with(shape.front) && input.ends_with(shape.foot));
            }
        }
    }

    /// n is one less than 3t, 3t and one more equally often: two of three are blocks, save for those without a
    /// recognised line.
    #[test]
    fn crowded_paragraphs_fall_on_both_sides_of_the_rule() {
        let mut rng = Rng::new(1);
        let accepted = (0..1_000).filter(|_| {
            let input = crowded(&mut rng);
            original::block_start(&input) < input.len()
        });
        assert!((600..670).contains(&accepted.count()));
    }

    /// What a reading shows of the rules that random messages should reach.
    fn features(input: &[u8], reading: &Reading) -> Vec<&'static str> {
        let body = &input[reading.body_start.unwrap_or(input.len())..];
        let start = original::block_start(body);
        let (t, n) = count(&body[start..]);
        let recognised = body[start..].windows(15).any(|window| window == PREFIXES[0]);
        let has = |value: fn(&Value) -> bool| reading.message_trailers.iter().any(|trailer| value(&trailer.value));
        let all = [
            ("no body", reading.body_start.is_none()),
            ("a title of several lines", matches!(reading.summary, Value::Written(_))),
            ("no block", reading.body_start.is_some() && start == body.len()),
            ("a block below other text", start > 0 && start < body.len()),
            (
                "a block without a trailer",
                start < body.len() && reading.message_trailers.is_empty(),
            ),
            ("3t = n", recognised && t > 0 && n == 3 * t),
            ("3t = n, t > 1", recognised && t > 1 && n == 3 * t),
            ("3t = n + 1", recognised && t > 1 && n + 1 == 3 * t),
            ("two blocks", original::blocks(body).len() > 1),
            ("a written value", has(|value| matches!(value, Value::Written(_)))),
            ("an empty value", has(|value| matches!(value, Value::Empty))),
            (
                "a written value that is empty",
                has(|value| *value == Value::Written(Vec::new())),
            ),
            ("an author", !reading.message_filtered[4].is_empty()),
            ("CR LF", body.windows(2).any(|two| two == b"\r\n")),
        ];
        all.into_iter()
            .filter(|(_, holds)| *holds)
            .map(|(name, _)| name)
            .collect()
    }

    /// Lines of the first two kinds, and lines that are neither and not indented, of a paragraph without its blanks.
    fn count(paragraph: &[u8]) -> (usize, usize) {
        let lines = paragraph.split_inclusive(|&byte| byte == b'\n');
        let (mut t, mut n) = (0, 0);
        for line in lines.filter(|line| !line[0].is_ascii_whitespace()) {
            let is_trailer = original::step(line, 0).is_some();
            let is_recognised = PREFIXES.iter().any(|prefix| line.starts_with(prefix));
            *(if is_trailer || is_recognised { &mut t } else { &mut n }) += 1;
        }
        (t, n)
    }

    #[test]
    fn random_messages_reach_every_rule() {
        let mut rng = Rng::new(1);
        let mut reached = std::collections::BTreeMap::new();
        for _ in 0..20_000 {
            let input = structured(&mut rng);
            for feature in features(&input, &original::read(&input)) {
                *reached.entry(feature).or_insert(0) += 1;
            }
        }
        assert_eq!(reached.len(), 14, "{reached:?}");
        assert!(reached.values().all(|&times| times >= 50), "{reached:?}");
    }
}
