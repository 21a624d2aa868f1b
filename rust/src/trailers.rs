use alloc::{borrow::Cow, vec::Vec};
use core::{fmt, iter};

use crate::{
    archive::{self, Kind, RECORD_LEN},
    value::{value, with_room},
    Cursor, Ending, Record,
};

/// The trailers of a body or of a block, in order; lines that are no part of a trailer are passed over.
///
/// The first step lists all trailers at once, where they are few; else they are read step by step.
#[derive(Clone)]
pub struct Trailers<'a> {
    // Within LIMIT.
    input: &'a [u8],
    // A place of the input, with the number of its line there; behind it are the trailers that are not listed.
    cursor: Cursor,
    batch: Batch,
}

/// What of a walk is listed.
#[derive(Clone)]
enum Batch {
    /// Nothing, and it has not been tried.
    Untried,
    /// Nothing: there are too many trailers, or too long ones.
    Steps,
    /// All trailers that are left: the numbers of the first `len` records but those that were `given`, and what was written for
    /// their values.
    All {
        table: [[usize; RECORD_LEN]; MOST],
        out: [u8; MOST_BYTES],
        len: usize,
        given: usize,
    },
}

/// How many records and bytes are listed at once: the archive needs no count where there is an entry for each line from the
/// cursor on, and a byte for each byte.
const MOST: usize = 12;
const MOST_BYTES: usize = 320;

impl<'a> Trailers<'a> {
    /// Those from a cursor of an input within the limit.
    pub(crate) fn new(input: &'a [u8], cursor: Cursor) -> Self {
        let batch = Batch::Untried;
        Trailers { input, cursor, batch }
    }

    /// Lists what is left, if it is not much.
    fn list(&mut self) {
        self.batch = Batch::All {
            table: [[0; RECORD_LEN]; MOST],
            out: [0; MOST_BYTES],
            len: 0,
            given: 0,
        };
        if let Batch::All { table, out, len, .. } = &mut self.batch {
            match archive::list_numbers(self.input, self.cursor, table, out) {
                Ok(listed) => *len = listed.records,
                Err(_) => self.batch = Batch::Steps,
            }
        }
    }

    /// A cursor from which a walk finds what is left.
    fn stand(&self) -> Cursor {
        match &self.batch {
            Batch::All { table, len, given, .. } if given < len => {
                let next = archive::record(table[*given]);
                Cursor {
                    at: next.token.start,
                    line: next.line,
                }
            }
            // Nothing is left, so the number is not asked for.
            Batch::All { .. } => Cursor {
                at: self.input.len(),
                line: 1,
            },
            _ => self.cursor,
        }
    }

    /// The next trailer of the kind, by a step.
    fn next_of(&mut self, kind: Kind) -> Option<TrailerRef<'a>> {
        let step = |out: &mut [u8]| archive::next_trailer(self.input, self.cursor, kind, out);
        let (step, out) = with_room(step, |step| step.record.as_ref().map_or(0, Record::written))
            .expect("a cursor of an input within the limit");
        self.cursor = step.next;
        Some(TrailerRef::at(self.input, step.record?, out))
    }

    fn only(self, kind: Kind) -> impl Iterator<Item = TrailerRef<'a>> {
        let mut steps = Trailers::new(self.input, self.stand());
        iter::from_fn(move || steps.next_of(kind))
    }
}

impl<'a> Iterator for Trailers<'a> {
    type Item = TrailerRef<'a>;

    fn next(&mut self) -> Option<TrailerRef<'a>> {
        if let Batch::Untried = self.batch {
            self.list();
        }
        match &mut self.batch {
            Batch::All { table, out, len, given } => {
                let numbers = *table[..*len].get(*given)?;
                *given += 1;
                let record = archive::record(numbers);
                let written = record.value.written_of(out).to_vec();
                Some(TrailerRef::at(self.input, record, written))
            }
            _ => self.next_of(Kind::All),
        }
    }
}

impl fmt::Debug for Trailers<'_> {
    fn fmt(&self, f: &mut fmt::Formatter<'_>) -> fmt::Result {
        f.debug_struct("Trailers")
            .field("input", &self.input)
            .field("cursor", &self.stand())
            .finish()
    }
}

/// The trailers that are left, by kind; tokens are compared without regard to ASCII case.
impl<'a> Trailers<'a> {
    /// Those of `Signed-off-by`.
    pub fn signed_off_by(self) -> impl Iterator<Item = TrailerRef<'a>> {
        self.only(Kind::SignedOffBy)
    }

    /// Those of `Co-authored-by`.
    pub fn co_authored_by(self) -> impl Iterator<Item = TrailerRef<'a>> {
        self.only(Kind::CoAuthoredBy)
    }

    /// Those of `Assisted-by`.
    pub fn assisted_by(self) -> impl Iterator<Item = TrailerRef<'a>> {
        self.only(Kind::AssistedBy)
    }

    /// Those of `Signed-off-by`, `Co-authored-by`, `Assisted-by`, `Acked-by`, `Reviewed-by` and `Tested-by`.
    pub fn attributions(self) -> impl Iterator<Item = TrailerRef<'a>> {
        self.only(Kind::Attribution)
    }

    /// Those of `Signed-off-by` and `Co-authored-by`.
    pub fn authors(self) -> impl Iterator<Item = TrailerRef<'a>> {
        self.only(Kind::Author)
    }
}

/// A trailer of a body.
#[derive(PartialEq, Eq, Debug, Hash, Ord, PartialOrd, Clone)]
pub struct TrailerRef<'a> {
    /// What stands before the colon, like `Signed-off-by`, without the spaces and tabs behind it.
    pub token: &'a [u8],
    /// What stands behind the colon, trimmed.
    ///
    /// A value of one line is borrowed. One that goes on in indented lines is owned: its lines are trimmed, and those
    /// that are not empty joined by one space.
    pub value: Cow<'a, [u8]>,
    /// How its last line ends: where the value goes on in indented lines, the last of these.
    ///
    /// The original has no such field; it counts when two trailers are compared, as the others do.
    pub ending: Ending,
    /// The number of the line where it starts, counted from 1: one more than the LFs before it. A CR alone ends no line.
    ///
    /// A trailer of a [message](crate::message_trailers) is counted in the message, the title's lines included; one of a
    /// [`BodyRef`](crate::BodyRef), of its walk, its blocks or its lookup, from the body's first line. Along a walk the
    /// numbers rise.
    ///
    /// ```
    /// use sluicepod::{message_trailers, MessageRef};
    ///
    /// let message = b"Offload of bus 7,\nsecond run\n\nAll well.\n\nVehicle: 7\nRecords: 318,\n 22 late\nUnit: 3\n";
    /// assert!(message_trailers(message)?.map(|trailer| trailer.line).eq([6, 7, 9]));
    /// let body = MessageRef::from_bytes(message)?.body().unwrap();
    /// assert!(body.trailers().map(|trailer| trailer.line).eq([3, 4, 6]));
    /// # Ok::<(), sluicepod::Refusal>(())
    /// ```
    ///
    /// The original has no such field; it counts when two trailers are compared, as the others do: the same trailer on
    /// another line is another one.
    pub line: usize,
}

impl<'a> TrailerRef<'a> {
    /// That of a record. What was written for its value is all of `out`.
    pub(crate) fn at(input: &'a [u8], record: Record, out: Vec<u8>) -> Self {
        TrailerRef {
            token: &input[record.token],
            value: value(input, record.value, out),
            ending: record.ending,
            line: record.line,
        }
    }
}

/// Questions about the token, which is compared without regard to ASCII case.
impl TrailerRef<'_> {
    /// Whether it is `Signed-off-by`.
    pub fn is_signed_off_by(&self) -> bool {
        self.is_of(Kind::SignedOffBy)
    }

    /// Whether it is `Co-authored-by`.
    pub fn is_co_authored_by(&self) -> bool {
        self.is_of(Kind::CoAuthoredBy)
    }

    /// Whether it is `Assisted-by`.
    pub fn is_assisted_by(&self) -> bool {
        self.is_of(Kind::AssistedBy)
    }

    /// Whether it is `Acked-by`.
    pub fn is_acked_by(&self) -> bool {
        self.is_of(Kind::AckedBy)
    }

    /// Whether it is `Reviewed-by`.
    pub fn is_reviewed_by(&self) -> bool {
        self.is_of(Kind::ReviewedBy)
    }

    /// Whether it is `Tested-by`.
    pub fn is_tested_by(&self) -> bool {
        self.is_of(Kind::TestedBy)
    }

    /// Whether it is one of these six.
    pub fn is_attribution(&self) -> bool {
        self.is_of(Kind::Attribution)
    }

    /// A token over the limit, which can be put there by hand, is refused: it is none of the six.
    fn is_of(&self, kind: Kind) -> bool {
        archive::is_of_kind(self.token, kind).unwrap_or(false)
    }
}
