use core::ops::Deref;

use crate::{archive, Cursor, Ending, Refusal};
#[cfg(feature = "alloc")]
use crate::{value::with_room, Record, TrailerRef, Trailers};

/// The body of a message, with its trailers told from the rest.
///
/// As bytes, by [`Deref`] and [`AsRef`], it is the part [without the trailers](BodyRef::without_trailer), as in the
/// original.
///
/// ```
/// use sluicepod::BodyRef;
///
/// let body = BodyRef::from_bytes(b"All well.\n\nVehicle: 7\nRecords: 318,\n 22 late\n")?;
/// assert_eq!(body.without_trailer(), b"All well.");
/// let trailers: Vec<_> = body.trailers().collect();
/// assert_eq!(trailers.len(), 2);
/// assert_eq!(trailers[1].token, b"Records");
/// assert_eq!(&trailers[1].value[..], b"318, 22 late");
/// # Ok::<(), sluicepod::Refusal>(())
/// ```
#[derive(PartialEq, Eq, Debug, Hash, Ord, PartialOrd, Clone, Copy)]
pub struct BodyRef<'a> {
    // Within LIMIT.
    body: &'a [u8],
    // At most the body's length.
    trailer_start: usize,
    ending: Ending,
}

impl<'a> BodyRef<'a> {
    /// Finds the trailer block of a body.
    ///
    /// # Errors
    ///
    /// [`Refusal::TooLong`], where the body is longer than [`LIMIT`](crate::LIMIT).
    pub fn from_bytes(body: &'a [u8]) -> Result<Self, Refusal> {
        let (trailer_start, ending) = archive::block_start(body)?;
        Ok(BodyRef {
            body,
            trailer_start,
            ending,
        })
    }

    /// Where the trailer block starts in the body; the body's length where there is none.
    ///
    /// The block begins with the end of the line above the blank line that it stands under.
    pub fn trailer_start(&self) -> usize {
        self.trailer_start
    }

    /// How the body's last line ends that is not blank, whether or not there is a trailer block; [`Ending::None`] where
    /// every line is blank.
    ///
    /// ```
    /// use sluicepod::{BodyRef, Ending};
    ///
    /// assert_eq!(BodyRef::from_bytes(b"Written in the office.\r\n")?.ending(), Ending::CrLf);
    /// assert_eq!(BodyRef::from_bytes(b"Vehicle: 22\r\n\n \n")?.ending(), Ending::CrLf);
    /// assert_eq!(BodyRef::from_bytes(b"")?.ending(), Ending::None);
    /// # Ok::<(), sluicepod::Refusal>(())
    /// ```
    pub fn ending(&self) -> Ending {
        self.ending
    }

    /// The body up to its trailer block.
    pub fn without_trailer(&self) -> &'a [u8] {
        &self.body[..self.trailer_start]
    }

    /// Where the walk of its trailers by [steps](crate::next_trailer), or their [listing](crate::list_from), begins: the block's
    /// start. The LFs above are counted.
    pub fn cursor(&self) -> Cursor {
        Cursor::FRONT.moved_on(self.body, self.trailer_start)
    }

    /// The trailers of the trailer block. Their [lines](TrailerRef::line) are counted in the body, so all of the body above
    /// them is looked at.
    #[cfg(feature = "alloc")]
    pub fn trailers(&self) -> Trailers<'a> {
        Trailers::new(self.body, self.cursor())
    }

    /// The whole body as messages, each with the trailers that directly follow it.
    ///
    /// The parts, joined, are the body. What looks like a trailer above the trailer block is a part of a message. The lines
    /// are counted from block to block, so all of the body is looked at, once.
    ///
    /// ```
    /// use sluicepod::BodyRef;
    ///
    /// let body = BodyRef::from_bytes(b"A: b\nSigned-off-by: c\nx\nD: e\n")?;
    /// let blocks: Vec<_> = body.message_blocks().collect();
    /// assert_eq!(blocks.len(), 2);
    /// assert_eq!((blocks[0].message, blocks[0].trailers().count()), (&b""[..], 2));
    /// assert_eq!((blocks[1].message, blocks[1].trailers().count()), (&b"x\n"[..], 1));
    /// # Ok::<(), sluicepod::Refusal>(())
    /// ```
    pub fn message_blocks(&self) -> MessageBlocks<'a> {
        MessageBlocks {
            body: self.body,
            cursor: Cursor::FRONT,
            start: self.trailer_start,
        }
    }

    /// The last trailer whose token is `name`, ASCII case aside: of an offload that was retried, the state that holds.
    ///
    /// An empty name is found nowhere, and neither is one longer than [`LIMIT`](crate::LIMIT), since no body has room for
    /// such a token. The original has no such call; to search the bytes of the body, ask
    /// [`without_trailer`](BodyRef::without_trailer) for them.
    ///
    /// ```
    /// use sluicepod::BodyRef;
    ///
    /// let body = BodyRef::from_bytes(b"Vehicle: 7\nOffload-state: partial\nOffload-state: complete\n")?;
    /// assert_eq!(&body.find(b"offload-state").unwrap().value[..], b"complete");
    /// assert_eq!(body.find(b"Records"), None);
    /// # Ok::<(), sluicepod::Refusal>(())
    /// ```
    #[cfg(feature = "alloc")]
    pub fn find(&self, name: &[u8]) -> Option<TrailerRef<'a>> {
        // The body is within the limit and there is room, so what is refused is the name's length.
        let find = |out: &mut [u8]| archive::find_trailer(self.body, name, out);
        let (found, out) = with_room(find, |found| found.as_ref().map_or(0, Record::written)).ok()?;
        Some(TrailerRef::at(self.body, found?, out))
    }
}

impl AsRef<[u8]> for BodyRef<'_> {
    fn as_ref(&self) -> &[u8] {
        self.without_trailer()
    }
}

impl Deref for BodyRef<'_> {
    type Target = [u8];

    fn deref(&self) -> &[u8] {
        self.without_trailer()
    }
}

/// The messages of a body with the trailers that follow each, in order.
#[derive(Clone, Debug)]
pub struct MessageBlocks<'a> {
    // Within LIMIT.
    body: &'a [u8],
    // A place of the body, with the number of its line there.
    cursor: Cursor,
    // At most the body's length.
    start: usize,
}

impl<'a> Iterator for MessageBlocks<'a> {
    type Item = MessageBlock<'a>;

    fn next(&mut self) -> Option<MessageBlock<'a>> {
        let from = self.cursor;
        let step = archive::next_block(self.body, from.at, self.start).expect("positions in a body within the limit");
        let (at, start) = step.next;
        self.start = start;
        let (message_end, end) = step.ends?;
        let cursor = from.moved_on(self.body, message_end);
        self.cursor = cursor.moved_on(self.body, at);
        Some(MessageBlock {
            message: &self.body[from.at..message_end],
            input: &self.body[..end],
            cursor,
        })
    }
}

/// A message and the trailers that directly follow it.
#[derive(Clone, Copy, Debug)]
pub struct MessageBlock<'a> {
    /// The message as it stands in the body, white space and line ends with it.
    pub message: &'a [u8],
    // The body up to the block's end, within LIMIT.
    input: &'a [u8],
    // Where its trailers begin.
    cursor: Cursor,
}

impl<'a> MessageBlock<'a> {
    /// The trailers that directly follow [`message`](MessageBlock::message); their [lines](TrailerRef::line) are counted in
    /// the body.
    #[cfg(feature = "alloc")]
    pub fn trailers(&self) -> Trailers<'a> {
        Trailers::new(self.input, self.cursor)
    }

    /// What to hand to the [steps](crate::next_trailer), or to the [listing](crate::list_from), for the same trailers where
    /// there is no heap: the body up to the block's end, and the cursor that they begin at.
    ///
    /// ```
    /// use sluicepod::{next_trailer, BodyRef};
    ///
    /// let body = BodyRef::from_bytes(b"A: b\nSigned-off-by: c\nx\nD: e\n")?;
    /// let (input, cursor) = body.message_blocks().nth(1).unwrap().walk();
    /// let step = next_trailer(input, cursor, &mut [])?;
    /// assert_eq!(step.record.unwrap().line, 4);
    /// assert_eq!(next_trailer(input, step.next, &mut [])?.record, None);
    /// # Ok::<(), sluicepod::Refusal>(())
    /// ```
    pub fn walk(&self) -> (&'a [u8], Cursor) {
        (self.input, self.cursor)
    }
}
