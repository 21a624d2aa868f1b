use crate::{archive, Reading, Refusal};

/// A field of the closing note. It is added to the original's names, and so are the two calls.
#[derive(PartialEq, Eq, Debug, Hash, Ord, PartialOrd, Clone, Copy)]
pub enum Field {
    /// `Vehicle`: 1 to 6 digits.
    Vehicle,
    /// `Records`: a decimal from 0 to 1,000,000 without needless zeros.
    Records,
    /// `Offload-state`: `complete` or `partial`, in those bytes.
    OffloadState,
}

impl Field {
    /// The name that its trailer has; ASCII case does not count.
    pub fn name(&self) -> &'static str {
        match self {
            Field::Vehicle => "Vehicle",
            Field::Records => "Records",
            Field::OffloadState => "Offload-state",
        }
    }
}

/// What an entry says that closes an offload: exactly one trailer of each [`Field`], each with a good content.
#[derive(PartialEq, Eq, Debug, Hash, Clone, Copy)]
pub struct ClosingNote<'a> {
    /// The digits of the vehicle, a part of the message.
    pub vehicle: &'a [u8],
    /// How many records the entry counts.
    pub records: u32,
    /// Whether the state is `complete`; if not, it is `partial`.
    pub complete: bool,
}

/// The closing note of an entry. The fields may stand in any order, among other trailers; values are judged unfolded.
///
/// ```
/// use sluicepod::{closing_note, Reading};
///
/// let entry = b"Offload of bus 31\n\nVehicle: 31\nRecords: 207\nOffload-state: complete\n";
/// let note = closing_note(entry, Reading::Whole)?;
/// assert_eq!((note.vehicle, note.records, note.complete), (&b"31"[..], 207, true));
/// # Ok::<(), sluicepod::Refusal>(())
/// ```
///
/// # Errors
///
/// [`Refusal::TooLong`], where the message, uncut, is longer than [`LIMIT`](crate::LIMIT); then [`Refusal::Missing`] where one of the
/// fields is, [`Refusal::Repeated`] where one is, and [`Refusal::BadContent`], in this order, each with the first such field.
pub fn closing_note(message: &[u8], reading: Reading) -> Result<ClosingNote<'_>, Refusal> {
    let (vehicle, records, complete) = archive::closing_note(message, reading)?;
    Ok(ClosingNote {
        vehicle: &message[vehicle],
        // At most 1,000,000: the archive's statement.
        records: records as u32,
        complete,
    })
}

/// Whether a bus's data may be erased, where so many records were received: the entry is a closing note, its state is complete, and
/// its count is that one.
///
/// ```
/// use sluicepod::{may_erase, Field, Reading, Refusal};
///
/// let entry = b"Offload of bus 31\n\nVehicle: 31\nRecords: 207\nOffload-state: complete\n";
/// assert_eq!(may_erase(entry, Reading::Whole, 207), Ok(true));
/// assert_eq!(may_erase(entry, Reading::Whole, 206), Ok(false));
/// assert_eq!(may_erase(b"Offload\n\nVehicle: 31\n", Reading::Whole, 0), Err(Refusal::Missing(Field::Records)));
/// ```
///
/// # Errors
///
/// Those of [`closing_note`]: an entry that is no closing note is no reason to erase, and is not `false` either.
pub fn may_erase(message: &[u8], reading: Reading, received: usize) -> Result<bool, Refusal> {
    archive::may_erase(message, reading, received)
}
