use crate::{archive, Refusal};

/// How a message is read. It is added to the original's names.
///
/// A divider is a line whose text is `---` or starts with `--- `: what stands below it is a patch, for the manual of
/// `git interpret-trailers`. A tab behind the hyphens makes none.
#[derive(PartialEq, Eq, Debug, Hash, Ord, PartialOrd, Clone, Copy)]
pub enum Reading {
    /// All of it, as the original reads it.
    Whole,
    /// Up to its first divider, if it has one.
    AboveDivider,
}

/// Where a message ends in a reading: before its first divider; its length where it has none, or is read whole.
///
/// ```
/// use sluicepod::{message_end, Reading};
///
/// let message = b"Offload of bus 7\n\nVehicle: 7\n---\n notes.txt | 1 +\n";
/// assert_eq!(message_end(message, Reading::AboveDivider)?, 29);
/// assert_eq!(message_end(message, Reading::Whole)?, message.len());
/// # Ok::<(), sluicepod::Refusal>(())
/// ```
///
/// # Errors
///
/// [`Refusal::TooLong`], where the message, uncut, is longer than [`LIMIT`](crate::LIMIT).
pub fn message_end(message: &[u8], reading: Reading) -> Result<usize, Refusal> {
    archive::message_end(message, reading)
}

/// The message up to its first divider: handed to any other call, that one is asked in the second reading.
///
/// ```
/// use sluicepod::{above_divider, message_trailers};
///
/// let mail = b"Offload of bus 7\n\nVehicle: 7\n---\n notes.txt | 1 +\n";
/// assert_eq!(message_trailers(mail)?.count(), 0);
/// assert_eq!(message_trailers(above_divider(mail)?)?.count(), 1);
/// # Ok::<(), sluicepod::Refusal>(())
/// ```
///
/// # Errors
///
/// [`Refusal::TooLong`], where the message, uncut, is longer than [`LIMIT`](crate::LIMIT), however short its cut is.
pub fn above_divider(message: &[u8]) -> Result<&[u8], Refusal> {
    Ok(&message[..message_end(message, Reading::AboveDivider)?])
}
