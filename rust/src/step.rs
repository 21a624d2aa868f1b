//! The trailer walk by single steps, and the lookup, with a lent buffer: no heap is needed.

use crate::{
    archive::{self, Kind},
    Record, Refusal,
};

/// A place of an input, and the number of its line there: where a walk of trailers stands.
///
/// The first one is [`Cursor::of_message`], or [`BodyRef::cursor`](crate::BodyRef::cursor), or that of a block
/// ([`MessageBlock::walk`](crate::MessageBlock::walk)), or [`Cursor::FRONT`]; each step gives the next. With another number
/// than the right one the trailers' numbers are off by as much, and all else is right.
#[derive(PartialEq, Eq, Debug, Hash, Ord, PartialOrd, Clone, Copy)]
pub struct Cursor {
    /// How many bytes of the input stand before it.
    pub at: usize,
    /// One more than the LFs before it.
    pub line: usize,
}

impl Cursor {
    /// That of an input's front.
    pub const FRONT: Cursor = Cursor { at: 0, line: 1 };

    /// Where the walk of a message's trailers begins: at its end where it has no body, or its body no trailer block. All of
    /// the message above is looked at, for the number.
    ///
    /// # Errors
    ///
    /// [`Refusal::TooLong`], where the message is longer than [`LIMIT`](crate::LIMIT).
    pub fn of_message(message: &[u8]) -> Result<Cursor, Refusal> {
        archive::message_trailers(message)
    }

    /// That of any place of an input, which may stand inside a line: the LFs before it are counted.
    ///
    /// ```
    /// use sluicepod::{Cursor, Refusal};
    ///
    /// assert_eq!(Cursor::of_place(b"A: b\nC: d", 7)?, Cursor { at: 7, line: 2 });
    /// assert_eq!(Cursor::of_place(b"A: b\nC: d", 10), Err(Refusal::BadPlace));
    /// # Ok::<(), Refusal>(())
    /// ```
    ///
    /// # Errors
    ///
    /// [`Refusal::TooLong`], where the input is longer than [`LIMIT`](crate::LIMIT); [`Refusal::BadPlace`], where `at` is
    /// past its end.
    pub fn of_place(input: &[u8], at: usize) -> Result<Cursor, Refusal> {
        archive::cursor_at(input, at)
    }

    /// Moved on to a later place of an input within the limit: the LFs between are counted.
    pub(crate) fn moved_on(self, input: &[u8], at: usize) -> Cursor {
        let between = &input[self.at..at];
        let counted = archive::cursor_at(between, between.len()).expect("the end of an input within the limit");
        Cursor {
            at,
            line: self.line + counted.line - 1,
        }
    }
}

/// A step of a walk: the trailer that it found, or none at the walk's end, and the cursor to go on from.
#[derive(PartialEq, Eq, Debug, Hash, Clone)]
pub struct Step {
    /// The trailer.
    pub record: Option<Record>,
    /// Where the next step begins; at the walk's end, the input's end.
    pub next: Cursor,
}

/// The next trailer from the cursor on; lines that are no part of a trailer are passed over.
///
/// A value that goes on in indented lines is written to the front of `out`, unfolded. The bytes behind it are kept, and on a
/// refusal all of them.
///
/// ```
/// use sluicepod::{next_trailer, Cursor, Refusal};
///
/// let message = b"Offload of bus 7\n\nVehicle: 7\nRecords: 318,\n 22 late\n";
/// let mut out = [0; 12];
/// let first = next_trailer(message, Cursor::of_message(message)?, &mut out)?;
/// let vehicle = first.record.unwrap();
/// assert_eq!(vehicle.token_bytes(message), b"Vehicle");
/// assert_eq!((vehicle.value_bytes(message, &out), vehicle.line), (&b"7"[..], 3));
///
/// let second = next_trailer(message, first.next, &mut out)?;
/// assert_eq!(second.record.unwrap().value_bytes(message, &out), b"318, 22 late");
/// assert_eq!(next_trailer(message, first.next, &mut out[..11]), Err(Refusal::NoRoom { needed: 12 }));
/// assert_eq!(next_trailer(message, second.next, &mut out)?.record, None);
/// # Ok::<(), Refusal>(())
/// ```
///
/// # Errors
///
/// In this order: [`Refusal::TooLong`], where the input is longer than [`LIMIT`](crate::LIMIT); [`Refusal::BadPlace`], where
/// the cursor is past its end, or its number is 0 or more than one over its place; [`Refusal::NoRoom`], where `out` is shorter
/// than the value to be written.
pub fn next_trailer(input: &[u8], cursor: Cursor, out: &mut [u8]) -> Result<Step, Refusal> {
    archive::next_trailer(input, cursor, Kind::All, out)
}

/// The last trailer of a body whose token is `name`, ASCII case aside; an empty name is found nowhere.
///
/// Only that trailer's value is written to `out`, and only for it room is needed. The bytes behind it are kept, and on a
/// refusal all of them.
///
/// ```
/// use sluicepod::find_trailer;
///
/// let body = b"Vehicle: 7\nOffload-state: partial\nOffload-state: complete\n";
/// let state = find_trailer(body, b"offload-state", &mut [])?.unwrap();
/// assert_eq!((state.value_bytes(body, &[]), state.line), (&b"complete"[..], 3));
/// assert_eq!(find_trailer(body, b"Records", &mut [])?, None);
/// # Ok::<(), sluicepod::Refusal>(())
/// ```
///
/// # Errors
///
/// [`Refusal::TooLong`], where the body or the name is longer than [`LIMIT`](crate::LIMIT); [`Refusal::NoRoom`], where `out` is
/// shorter than the value to be written.
pub fn find_trailer(body: &[u8], name: &[u8], out: &mut [u8]) -> Result<Option<Record>, Refusal> {
    archive::find_trailer(body, name, out)
}
