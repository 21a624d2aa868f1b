use core::{error::Error, fmt};

use crate::{Bundle, Field, LIMIT};

/// Why a call gave no answer.
///
/// Most calls of this crate give [`TooLong`](Refusal::TooLong) alone: they keep their positions themselves, and make room
/// for what is written. Which others a call gives is said there.
#[derive(Clone, Copy, Debug, PartialEq, Eq, Hash)]
pub enum Refusal {
    /// An input is longer than [`LIMIT`].
    TooLong,
    /// A position or a range does not fit in the input.
    BadPlace,
    /// A buffer is too short for what is to be written.
    NoRoom {
        /// The length that is needed, in bytes; no shorter one will do.
        needed: usize,
    },
    /// A buffer is too short for all that a listing writes, though the table is long enough.
    NoRoomForAll {
        /// The entries of the table that are needed.
        records: usize,
        /// The length of the buffer that is needed, in bytes.
        bytes: usize,
    },
    /// A table is too short for what is listed.
    ShortTable {
        /// The entries of the table that are needed.
        records: usize,
        /// The length of the buffer that is needed, in bytes.
        bytes: usize,
    },
    /// A token that is not letters, digits or hyphens, at least one.
    BadToken,
    /// A value that has an LF, or that is not its own trim.
    BadValue,
    /// A message without a non-blank line: a new trailer has nothing to stand on.
    NothingToStandOn,
    /// The last bytes of a body do not settle its trailers: more of it is needed.
    MoreBytes,
    /// No closing note: no trailer has the field's name.
    Missing(Field),
    /// No closing note: more than one trailer has the field's name.
    Repeated(Field),
    /// No closing note: the field's content is not a good one.
    BadContent(Field),
    /// Bytes that are no bundle, or more messages than one bundle holds.
    NotABundle,
    /// A commit object's header is not good.
    BadHeader {
        /// The number of the first line after which no good header is possible, counted from 0; a line with those that
        /// continue it is one.
        line: usize,
    },
    /// The value is no mailbox.
    NotAMailbox {
        /// The place of the first byte with which no mailbox goes on, or the value's length.
        at: usize,
    },
    /// The value is no mailbox: a ninth comment is opened inside eight.
    NinthComment {
        /// The place of its bracket.
        at: usize,
    },
}

impl Refusal {
    /// The refusal's number, as the documents and the C header have it.
    pub fn number(&self) -> u32 {
        match self {
            Refusal::TooLong => 1,
            Refusal::BadPlace => 2,
            Refusal::NoRoom { .. } | Refusal::NoRoomForAll { .. } => 3,
            Refusal::ShortTable { .. } => 4,
            Refusal::BadToken => 5,
            Refusal::BadValue => 6,
            Refusal::NothingToStandOn => 7,
            Refusal::MoreBytes => 8,
            Refusal::Missing(_) => 9,
            Refusal::Repeated(_) => 10,
            Refusal::BadContent(_) => 11,
            Refusal::NotABundle => 12,
            Refusal::BadHeader { .. } => 13,
            Refusal::NotAMailbox { .. } => 14,
            Refusal::NinthComment { .. } => 15,
        }
    }
}

impl fmt::Display for Refusal {
    fn fmt(&self, f: &mut fmt::Formatter<'_>) -> fmt::Result {
        match self {
            Refusal::TooLong => write!(f, "the input is longer than {} bytes", LIMIT),
            Refusal::BadPlace => write!(f, "the position or range is not in the input"),
            Refusal::NoRoom { needed } => write!(f, "the buffer is too short: {} bytes are needed", needed),
            Refusal::NoRoomForAll { records, bytes } => write!(
                f,
                "the buffer is too short: {} records and {} bytes are needed",
                records, bytes
            ),
            Refusal::ShortTable { records, bytes } => write!(
                f,
                "the table is too short: {} records and {} bytes are needed",
                records, bytes
            ),
            Refusal::BadToken => write!(f, "the token is not letters, digits or hyphens, at least one"),
            Refusal::BadValue => write!(f, "the value has a line feed, or white space at an end"),
            Refusal::NothingToStandOn => write!(f, "the message has no line that is not blank"),
            Refusal::MoreBytes => write!(f, "more of the body is needed"),
            Refusal::Missing(field) => write!(f, "no closing note: {} is missing", field.name()),
            Refusal::Repeated(field) => write!(f, "no closing note: {} is repeated", field.name()),
            Refusal::BadContent(field) => write!(f, "no closing note: the content of {} is bad", field.name()),
            Refusal::NotABundle => write!(f, "not a bundle of at most {} messages", Bundle::MOST),
            Refusal::BadHeader { line } => write!(f, "the header is not a commit object's: line {} is at fault", line),
            Refusal::NotAMailbox { at } => write!(f, "no mailbox goes on at byte {}", at),
            Refusal::NinthComment { at } => write!(f, "a ninth comment is opened inside eight at byte {}", at),
        }
    }
}

impl Error for Refusal {}
