#[cfg(feature = "alloc")]
use {crate::value::with_room, alloc::vec::Vec};

use crate::{archive, Refusal};

/// Writes a message with one trailer more.
///
/// Blank lines at the end are dropped, the last line gets the LF that it lacks, and an empty line follows unless the body
/// has an accepted block. Then comes the new line: token, colon, space, value. The new lines end with CR LF where the last
/// non-blank line of `message` does, and with LF elsewhere. Read again, the trailers are the old ones, at their places, and
/// then the new one.
///
/// ```
/// use sluicepod::{add_trailer, message_trailers};
///
/// let entry = b"Offload of bus 7\n\nVehicle: 7\n\n";
/// let closed = add_trailer(entry, b"Offload-state", b"complete")?;
/// assert_eq!(closed, b"Offload of bus 7\n\nVehicle: 7\nOffload-state: complete\n");
/// assert_eq!(message_trailers(&closed)?.count(), 2);
///
/// let title = add_trailer(b"Offload of bus 7", b"Vehicle", b"7")?;
/// assert_eq!(title, b"Offload of bus 7\n\nVehicle: 7\n");
/// # Ok::<(), sluicepod::Refusal>(())
/// ```
///
/// # Errors
///
/// In this order: [`Refusal::TooLong`], where an input is longer than [`LIMIT`](crate::LIMIT); [`Refusal::BadToken`], where
/// the token is not letters, digits or hyphens, at least one; [`Refusal::BadValue`], where the value has an LF or is not its
/// own trim; [`Refusal::NothingToStandOn`], where the message has no non-blank line; [`Refusal::TooLong`], where the result
/// would be longer than the limit.
#[cfg(feature = "alloc")]
pub fn add_trailer(message: &[u8], token: &[u8], value: &[u8]) -> Result<Vec<u8>, Refusal> {
    let (_, out) = with_room(|out| archive::add_trailer(message, token, value, out), |&len| len)?;
    Ok(out)
}

/// Writes a message with one trailer more to the front of `out`; answers its length.
///
/// The bytes of `out` behind it are kept, and on a refusal all of them.
///
/// ```
/// use sluicepod::{add_trailer_into, Refusal};
///
/// let mut out = [b'.'; 10];
/// assert_eq!(add_trailer_into(b"t", b"A", b"v", &mut out)?, 8);
/// assert_eq!(&out, b"t\n\nA: v\n..");
/// assert_eq!(add_trailer_into(b"t", b"A", b"v", &mut out[..7]), Err(Refusal::NoRoom { needed: 8 }));
/// # Ok::<(), sluicepod::Refusal>(())
/// ```
///
/// # Errors
///
/// Those of [`add_trailer`], and behind them [`Refusal::NoRoom`], where `out` is shorter than the result.
pub fn add_trailer_into(message: &[u8], token: &[u8], value: &[u8], out: &mut [u8]) -> Result<usize, Refusal> {
    archive::add_trailer(message, token, value, out)
}
