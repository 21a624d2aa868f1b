use crate::{archive, Cursor, Reading, Record, Refusal};

/// How much a listing wrote.
#[derive(PartialEq, Eq, Debug, Hash, Clone, Copy)]
pub struct Listed {
    /// How many records of the table.
    pub records: usize,
    /// How many bytes of the buffer.
    pub bytes: usize,
}

/// All trailers from a place of an input on: what the [steps](crate::next_trailer) from that cursor give, called until the end.
///
/// The records are written to the front of `table`, in order. Values that go on in indented lines are written unfolded to `out`,
/// one behind another from its front. Entries and bytes behind them are kept, and on a refusal all of them. With an empty table
/// and an empty buffer the call tells what is needed.
///
/// ```
/// use sluicepod::{list_from, BodyRef, Record, Refusal};
///
/// let bytes = b"All well.\n\nVehicle: 7\nRecords: 318,\n 22 late\nUnit: 3,\n roof\n";
/// let at = BodyRef::from_bytes(bytes)?.cursor();
/// assert_eq!(list_from(bytes, at, &mut [], &mut []), Err(Refusal::ShortTable { records: 3, bytes: 19 }));
///
/// let (mut table, mut out) = ([Record::EMPTY; 8], [0; 64]);
/// let listed = list_from(bytes, at, &mut table, &mut out)?;
/// assert_eq!((listed.records, &out[..listed.bytes]), (3, &b"318, 22 late3, roof"[..]));
/// let unit = &table[2];
/// assert_eq!((unit.token_bytes(bytes), unit.value_bytes(bytes, &out)), (&b"Unit"[..], &b"3, roof"[..]));
/// assert_eq!(unit.line, 6);
/// # Ok::<(), sluicepod::Refusal>(())
/// ```
///
/// # Errors
///
/// In this order: [`Refusal::TooLong`], where the input is longer than [`LIMIT`](crate::LIMIT); [`Refusal::BadPlace`], where the
/// cursor is past its end, or its number is 0 or more than one over its place; [`Refusal::ShortTable`], where there are more
/// trailers than the table has entries; [`Refusal::NoRoomForAll`], where `out` is shorter than what is to be written. The last
/// two give both counts that are needed.
pub fn list_from(input: &[u8], at: Cursor, table: &mut [Record], out: &mut [u8]) -> Result<Listed, Refusal> {
    archive::list_from(input, at, table, out)
}

/// All trailers of a message, in either reading: what the [steps](crate::next_trailer) from [`Cursor::of_message`] give of the
/// message, or of what stands [above its divider](crate::above_divider), called until the end.
///
/// Table and buffer are filled as by [`list_from`]; places and numbers count in the message.
///
/// ```
/// use sluicepod::{list_trailers, Reading, Record};
///
/// let mail = b"Offload of bus 7\n\nVehicle: 7\nRecords: 318,\n 22 late\n---\n notes.txt | 1 +\n";
/// let (mut table, mut out) = ([Record::EMPTY; 8], [0; 64]);
/// let listed = list_trailers(mail, Reading::AboveDivider, &mut table, &mut out)?;
/// assert_eq!((listed.records, listed.bytes), (2, 12));
/// assert_eq!((table[1].value_bytes(mail, &out), table[1].line), (&b"318, 22 late"[..], 4));
/// assert_eq!(list_trailers(mail, Reading::Whole, &mut table, &mut out)?.records, 0);
/// # Ok::<(), sluicepod::Refusal>(())
/// ```
///
/// # Errors
///
/// In this order: [`Refusal::TooLong`], where the message, uncut, is longer than [`LIMIT`](crate::LIMIT);
/// [`Refusal::ShortTable`] and [`Refusal::NoRoomForAll`], as of [`list_from`].
pub fn list_trailers(
    message: &[u8],
    reading: Reading,
    table: &mut [Record],
    out: &mut [u8],
) -> Result<Listed, Refusal> {
    archive::list_trailers(message, reading, table, out)
}
