//! Everything that a reader answers about one input, as offsets and bytes, whoever gave the answer.
//!
//! All offsets count from the front of the input that was asked about. The place of an empty part is not compared:
//! document 01 puts it at the front of what was trimmed, the original at the end.

use std::borrow::Cow;

/// The longest input that the port reads.
pub const LIMIT: usize = 1_048_576;

/// A part of the input, from `start` up to `end`.
#[derive(Clone, Copy, Debug, PartialEq, Eq)]
pub struct Part {
    pub start: usize,
    pub end: usize,
}

impl Part {
    pub fn of(self, input: &[u8]) -> &[u8] {
        &input[self.start..self.end]
    }

    pub fn moved(self, by: usize) -> Part {
        Part {
            start: self.start + by,
            end: self.end + by,
        }
    }
}

/// A summary or the value of a trailer.
#[derive(Clone, Debug, PartialEq, Eq)]
pub enum Value {
    /// A part of the input that is not empty.
    Part(Part),
    /// A part of the input that is empty, wherever it is.
    Empty,
    /// Bytes written for this answer; there may be none.
    Written(Vec<u8>),
}

impl Value {
    pub fn bytes<'a>(&'a self, input: &'a [u8]) -> &'a [u8] {
        match self {
            Value::Part(part) => part.of(input),
            Value::Empty => b"",
            Value::Written(bytes) => bytes,
        }
    }

    pub fn moved(self, by: usize) -> Value {
        match self {
            Value::Part(part) => Value::Part(part.moved(by)),
            other => other,
        }
    }
}

/// How a line ends.
#[derive(Clone, Copy, Debug, PartialEq, Eq)]
pub enum Ending {
    Lf,
    CrLf,
    Cr,
    None,
}

/// One step of the trailer walk: the trailer, where the walk goes on, how the trailer's last line ends, and the numbers of the
/// lines where it starts and where the walk goes on.
#[derive(Clone, Debug, PartialEq, Eq)]
pub struct Trailer {
    pub token: Part,
    pub value: Value,
    pub next: usize,
    pub ending: Ending,
    pub line: usize,
    pub next_line: usize,
}

impl Trailer {
    /// The same below this many bytes, which are this many lines.
    pub fn moved(self, by: usize, lines: usize) -> Trailer {
        Trailer {
            token: self.token.moved(by),
            value: self.value.moved(by),
            next: self.next + by,
            ending: self.ending,
            line: self.line + lines,
            next_line: self.next_line + lines,
        }
    }
}

/// A place, and the number of its line: one more than the LFs before it, plainly counted.
#[derive(Clone, Copy, Debug, PartialEq, Eq)]
pub struct Cursor {
    pub at: usize,
    pub line: usize,
}

impl Cursor {
    pub const FRONT: Cursor = Cursor { at: 0, line: 1 };

    pub fn of(input: &[u8], at: usize) -> Cursor {
        Cursor::FRONT.moved_on(input, at)
    }

    /// The LFs up to a later place are counted on.
    pub fn moved_on(self, input: &[u8], at: usize) -> Cursor {
        let lfs = input[self.at..at].iter().filter(|&&byte| byte == b'\n').count();
        Cursor {
            at,
            line: self.line + lfs,
        }
    }
}

/// A message part, the trailer part behind it, and the trailers that the trailer part gives when it is read by itself.
#[derive(Clone, Debug, PartialEq, Eq)]
pub struct Block {
    pub message: Part,
    pub trailer_part: Part,
    pub trailers: Vec<Trailer>,
}

/// The filters of the trailer walk.
#[derive(Clone, Copy, Debug, PartialEq, Eq)]
pub enum Filter {
    SignedOffBy,
    CoAuthoredBy,
    AssistedBy,
    Attributions,
    Authors,
}

pub const FILTERS: [Filter; 5] = [
    Filter::SignedOffBy,
    Filter::CoAuthoredBy,
    Filter::AssistedBy,
    Filter::Attributions,
    Filter::Authors,
];

/// The questions that can be asked of a token, and how many they are.
pub const QUESTIONS: usize = 7;
#[derive(Clone, Copy, Debug, Default, PartialEq, Eq)]
pub struct Attribution {
    pub signed_off_by: bool,
    pub co_authored_by: bool,
    pub assisted_by: bool,
    pub acked_by: bool,
    pub reviewed_by: bool,
    pub tested_by: bool,
    pub attribution: bool,
}

/// All answers about one input, which is taken as a message, as a body and as a token.
#[derive(Clone, Debug, PartialEq, Eq)]
pub struct Reading {
    // As a message.
    pub title_end: usize,
    pub body_start: Option<usize>,
    /// The summary of the title.
    pub summary: Value,
    /// The summary of the whole message.
    pub message_summary: Value,
    /// Where the walk of its trailers begins; the message's length where it has no body or its body no block.
    pub message_walk_start: Cursor,
    /// The trailers of the message, in offsets of the message.
    pub message_trailers: Vec<Trailer>,
    /// The same through each of `FILTERS`.
    pub message_filtered: [Vec<Trailer>; 5],

    // As a body.
    pub block_start: usize,
    /// That of the last line that is not blank; none where every line is blank.
    pub ending: Ending,
    /// Where the walk of its trailers begins: the block's start.
    pub walk_start: Cursor,
    pub trailers: Vec<Trailer>,
    pub filtered: [Vec<Trailer>; 5],
    /// For each of `trailers`, what its token is.
    pub attributions: Vec<Attribution>,
    pub blocks: Vec<Block>,
    /// The cursor of each of `places(input.len())`.
    pub cursors: Vec<Cursor>,
    /// One step of the trailer walk from each of them.
    pub steps: Vec<Option<Trailer>>,
    /// One step of the block walk from each of `block_cursors(input.len())`: message part and trailer part.
    pub block_steps: Vec<Option<(Part, Part)>>,
    /// The lookup of each of `names(input, &trailers)`.
    pub found: Vec<Option<Trailer>>,

    // As a token.
    pub as_token: Attribution,
}

impl Reading {
    /// How many single answers it holds: one for each call and for each step of a walk, the step that ends it with it.
    pub fn answers(&self) -> usize {
        let walk = |trailers: &Vec<Trailer>| trailers.len() + 1;
        let filtered = self.message_filtered.iter().chain(&self.filtered);
        let blocks = self.blocks.iter().map(|block| 1 + walk(&block.trailers));
        [
            6, // title and body, two summaries, where the two walks and the block begin
            walk(&self.message_trailers) + walk(&self.trailers),
            filtered.map(walk).sum::<usize>(),
            blocks.sum::<usize>() + 1,
            QUESTIONS * (self.attributions.len() + 1),
            self.cursors.len() + self.steps.len() + self.block_steps.len() + self.found.len(),
        ]
        .iter()
        .sum()
    }
}

/// Why a reader gives no reading.
#[derive(Clone, Debug, PartialEq, Eq)]
pub enum NoReading {
    /// It refuses, with this number.
    Refused(usize),
    /// It does what it says it never does.
    Broke(String),
}

pub type Answer = Result<Reading, NoReading>;

/// The places from which `Reading::steps` walks: all of a short input, and a few of a long one.
pub fn places(len: usize) -> Vec<usize> {
    if len <= 24 {
        return (0..=len).collect();
    }
    let mut places: Vec<usize> = (0..8).map(|eighth| len / 8 * eighth + eighth % 3).collect();
    places.extend([len - 2, len - 1, len]);
    places
}

/// The cursors, each a position and a start, from which `Reading::block_steps` walks. A start may lie before the
/// position.
pub fn block_cursors(len: usize) -> [(usize, usize); 8] {
    let (third, half) = (len / 3, len / 2);
    [
        (0, 0),
        (0, half),
        (0, len),
        (third, 0),
        (third, third),
        (half, len - third),
        (len - third, half),
        (len, 0),
    ]
}

/// The names that `Reading::found` looks up: none, one that is rarely there, and the first and last token of the walk
/// with the case of every letter turned.
pub fn names(input: &[u8], trailers: &[Trailer]) -> Vec<Cow<'static, [u8]>> {
    let mut names = vec![
        Cow::Borrowed(&b""[..]),
        Cow::Borrowed(b"a"),
        Cow::Borrowed(b"signed-off-BY"),
    ];
    for trailer in [trailers.first(), trailers.last()].into_iter().flatten() {
        let turned = trailer.token.of(input).iter().map(|&byte| turn_case(byte));
        names.push(Cow::Owned(turned.collect()));
    }
    names
}

fn turn_case(byte: u8) -> u8 {
    if byte.is_ascii_alphabetic() {
        byte ^ 0x20
    } else {
        byte
    }
}

/// The first field in which two answers part.
#[derive(Clone, Debug, PartialEq, Eq)]
pub struct Difference {
    pub field: &'static str,
    pub left: String,
    pub right: String,
}

impl Difference {
    fn new(field: &'static str, left: &impl std::fmt::Debug, right: &impl std::fmt::Debug) -> Difference {
        Difference {
            field,
            left: format!("{left:?}"),
            right: format!("{right:?}"),
        }
    }
}

/// Compares two answers field by field, in the order of `Reading`.
pub fn difference(left: &Answer, right: &Answer) -> Option<Difference> {
    let (left, right) = match (left, right) {
        (Ok(left), Ok(right)) => (left, right),
        (Err(left), Err(right)) => return (left != right).then(|| Difference::new("refusal", left, right)),
        (Ok(_), Err(right)) => return Some(Difference::new("refusal", &"none", right)),
        (Err(left), Ok(_)) => return Some(Difference::new("refusal", left, &"none")),
    };
    macro_rules! in_order {
        ($($field:ident)*) => {
            $(if left.$field != right.$field {
                return Some(Difference::new(stringify!($field), &left.$field, &right.$field));
            })*
        };
    }
    in_order!(title_end body_start summary message_summary message_walk_start message_trailers message_filtered
        block_start ending walk_start trailers filtered attributions blocks cursors steps block_steps found as_token);
    None
}
