use core::ops::Range;

use crate::Ending;

/// Where a value or a summary stands: in the input, or in the buffer that was lent for it.
#[derive(PartialEq, Eq, Debug, Hash, Clone)]
pub enum Place {
    /// A part of the input as it stands; nothing was written for it.
    Message(Range<usize>),
    /// A part of the buffer, to which it was written.
    Buffer(Range<usize>),
}

impl Place {
    /// The bytes there, of the input and the buffer that the call was lent.
    ///
    /// # Panics
    ///
    /// Where the part does not fit: `message` or `buffer` is not the one that the call was lent.
    pub fn bytes<'a>(&self, message: &'a [u8], buffer: &'a [u8]) -> &'a [u8] {
        match self {
            Place::Message(part) => &message[part.clone()],
            Place::Buffer(part) => &buffer[part.clone()],
        }
    }

    /// How many bytes of the buffer were written for it, where there was nothing else to write.
    #[cfg(feature = "alloc")]
    pub(crate) fn written(&self) -> usize {
        match self {
            Place::Message(_) => 0,
            Place::Buffer(part) => part.end,
        }
    }

    /// What of the buffer was written for it.
    #[cfg(feature = "alloc")]
    pub(crate) fn written_of<'a>(&self, buffer: &'a [u8]) -> &'a [u8] {
        match self {
            Place::Message(_) => &[],
            Place::Buffer(part) => &buffer[part.clone()],
        }
    }
}

/// A trailer, told by its places: what a call gives that needs no heap.
#[derive(PartialEq, Eq, Debug, Hash, Clone)]
pub struct Record {
    /// Where the token stands in the input.
    pub token: Range<usize>,
    /// Where the value stands: that of one line in the input, one that goes on in indented lines in the buffer, to which it
    /// was written unfolded.
    pub value: Place,
    /// How the trailer's last line ends: where the value goes on in indented lines, the last of these.
    pub ending: Ending,
    /// The number of the line where the trailer starts, counted from 1; of a [foot](crate::list_foot), upward from the last.
    pub line: usize,
}

impl Record {
    /// The record of no trailer, to make a table of: no line has the number 0.
    ///
    /// ```
    /// use sluicepod::Record;
    ///
    /// let table = [Record::EMPTY; 8];
    /// assert!(table.iter().all(|record| record.line == 0));
    /// ```
    pub const EMPTY: Record = Record {
        token: 0..0,
        value: Place::Message(0..0),
        ending: Ending::None,
        line: 0,
    };

    /// The token, of the input that the call was lent.
    ///
    /// # Panics
    ///
    /// Where it does not fit in `message`, which then is another one.
    pub fn token_bytes<'a>(&self, message: &'a [u8]) -> &'a [u8] {
        &message[self.token.clone()]
    }

    /// The value, of the input and the buffer that the call was lent.
    ///
    /// # Panics
    ///
    /// Where it does not fit: `message` or `buffer` is another one.
    pub fn value_bytes<'a>(&self, message: &'a [u8], buffer: &'a [u8]) -> &'a [u8] {
        self.value.bytes(message, buffer)
    }

    /// A record of a [foot](crate::list_foot), with its places in the input told from the front of an input of this length: of
    /// the tail, or of all that it is the end of. The number stays: it counts upward.
    ///
    /// # Panics
    ///
    /// Where a place is further from the end than the input is long.
    pub fn from_front(&self, len: usize) -> Record {
        let told = |part: &Range<usize>| {
            let at = |distance| len.checked_sub(distance).expect("a place of the input");
            at(part.start)..at(part.end)
        };
        Record {
            token: told(&self.token),
            value: match &self.value {
                Place::Message(part) => Place::Message(told(part)),
                Place::Buffer(part) => Place::Buffer(part.clone()),
            },
            ending: self.ending,
            line: self.line,
        }
    }

    /// How many bytes of the buffer were written for its value, by a call that gives no other record.
    #[cfg(feature = "alloc")]
    pub(crate) fn written(&self) -> usize {
        self.value.written()
    }
}
