use crate::{archive, Record, Refusal};

/// How much a listing of a foot wrote, and how far up it looked.
#[derive(PartialEq, Eq, Debug, Hash, Clone, Copy)]
pub struct Foot {
    /// How many records of the table.
    pub records: usize,
    /// How many bytes of the buffer.
    pub bytes: usize,
    /// How many lines were looked at, counted upward from the last: through the blank line above the last paragraph, or all
    /// lines of a whole body that has none there.
    pub lines: usize,
}

/// All trailers of a body, of which only the last bytes are at hand: those of the whole body's walk, told from the end.
///
/// `whole` says whether the tail is all of the body. If it is not, its first line is taken as torn; where the rest does not
/// settle the trailers, [`Refusal::MoreBytes`] asks for a longer tail. Nothing above the blank line over the last paragraph is
/// read.
///
/// Table and buffer are filled as by [`list_trailers`](crate::list_trailers), but places in the input are distances from the
/// end, so that a part's start is the greater: [`Record::from_front`] turns them around. Places in the buffer count from its
/// front. The numbers of lines count upward, the last line being 1, and fall along the walk.
///
/// ```
/// use sluicepod::{list_foot, Record, Refusal};
///
/// let body = b"All well.\n\nVehicle: 7\nRecords: 318,\n 22 late\n";
/// let (mut table, mut out) = ([Record::EMPTY; 4], [0; 32]);
/// let torn = &body[11..];
/// assert_eq!(list_foot(torn, false, &mut table, &mut out), Err(Refusal::MoreBytes));
///
/// let tail = &body[6..];
/// let foot = list_foot(tail, false, &mut table, &mut out)?;
/// assert_eq!((foot.records, foot.bytes, foot.lines), (2, 12, 4));
/// assert_eq!((table[0].token.clone(), table[0].line), (34..27, 3));
/// let vehicle = table[0].from_front(tail.len());
/// assert_eq!((vehicle.token_bytes(tail), vehicle.value_bytes(tail, &out)), (&b"Vehicle"[..], &b"7"[..]));
/// assert_eq!(table[1].value_bytes(tail, &out), b"318, 22 late");
/// # Ok::<(), Refusal>(())
/// ```
///
/// # Errors
///
/// In this order: [`Refusal::TooLong`], where the tail is longer than [`LIMIT`](crate::LIMIT); [`Refusal::MoreBytes`], where the
/// tail is not whole, and behind its first line no blank line has a non-blank one below it; [`Refusal::ShortTable`] and
/// [`Refusal::NoRoomForAll`], as of [`list_trailers`](crate::list_trailers).
pub fn list_foot(tail: &[u8], whole: bool, table: &mut [Record], out: &mut [u8]) -> Result<Foot, Refusal> {
    archive::list_foot(tail, whole, table, out)
}
