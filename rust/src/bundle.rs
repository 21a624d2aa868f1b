use core::{fmt, iter::Sum, ops::Add};
#[cfg(feature = "alloc")]
use {crate::value::with_room, alloc::vec::Vec, core::ops::Range};

use crate::{archive, Refusal};

/// Writes the bundle of some messages, each a range of `input`.
///
/// A bundle is one file of many messages: their number, where each starts and ends, and then the messages, one behind
/// another. The ranges may overlap, be empty, and stand in any order. The same messages always give the same bytes.
///
/// ```
/// use sluicepod::{write_bundle, Bundle};
///
/// let night = b"Bus 7\n\nVehicle: 7\n\0Bus 12\n\nVehicle: 12\n";
/// let bytes = write_bundle(night, &[0..18, 19..39])?;
/// let bundle = Bundle::from_bytes(&bytes)?;
/// assert_eq!(bundle.len(), 2);
/// assert_eq!(bundle.get(1), Some(&b"Bus 12\n\nVehicle: 12\n"[..]));
/// # Ok::<(), sluicepod::Refusal>(())
/// ```
///
/// # Errors
///
/// In this order: [`Refusal::TooLong`], where the input is longer than [`LIMIT`](crate::LIMIT); [`Refusal::BadPlace`],
/// where a range does not fit in it; [`Refusal::NotABundle`], where there are more than [`MOST`](Bundle::MOST) ranges;
/// [`Refusal::TooLong`], where the bundle would be longer than the limit.
#[cfg(feature = "alloc")]
pub fn write_bundle(input: &[u8], ranges: &[Range<usize>]) -> Result<Vec<u8>, Refusal> {
    let ranges = flat(ranges);
    let (_, out) = with_room(|out| archive::write_bundle(input, &ranges, out), |&len| len)?;
    Ok(out)
}

/// Writes the bundle of some messages, each a range of `input`, to the front of `out`; answers its length.
///
/// The bytes of `out` behind it are kept, and on a refusal all of them. The ranges are copied to the heap, in the form that the
/// archive takes.
///
/// ```
/// use sluicepod::{write_bundle_into, Refusal};
///
/// let mut out = [b'.'; 16];
/// assert_eq!(write_bundle_into(b"ab", &[0..2], &mut out)?, 14);
/// assert_eq!(&out[12..], b"ab..");
/// assert_eq!(write_bundle_into(b"ab", &[0..2], &mut out[..13]), Err(Refusal::NoRoom { needed: 14 }));
/// # Ok::<(), sluicepod::Refusal>(())
/// ```
///
/// # Errors
///
/// Those of [`write_bundle`], and behind them [`Refusal::NoRoom`], where `out` is shorter than the bundle.
#[cfg(feature = "alloc")]
pub fn write_bundle_into(input: &[u8], ranges: &[Range<usize>], out: &mut [u8]) -> Result<usize, Refusal> {
    archive::write_bundle(input, &flat(ranges), out)
}

/// The ranges as the archive takes them: start and end in turn.
#[cfg(feature = "alloc")]
fn flat(ranges: &[Range<usize>]) -> Vec<usize> {
    ranges.iter().flat_map(|range| [range.start, range.end]).collect()
}

/// A bundle: many messages in one file.
///
/// It is a count, as a `u32`, then count + 1 offsets, as `u32`s, all little endian, then the messages. The first offset is
/// the header's length, the last the bundle's, and none falls; equal neighbours mean an empty message.
///
/// ```
/// use sluicepod::{Bundle, Refusal};
///
/// let bundle = Bundle::from_bytes(b"\x01\0\0\0\x0c\0\0\0\x0e\0\0\0ab")?;
/// assert_eq!(bundle.iter().collect::<Vec<_>>(), [b"ab"]);
/// assert_eq!(Bundle::from_bytes(b"\x01\0\0\0\x0c\0\0\0\x0e\0\0\0abc"), Err(Refusal::NotABundle));
/// # Ok::<(), sluicepod::Refusal>(())
/// ```
#[derive(PartialEq, Eq, Debug, Hash, Clone, Copy)]
pub struct Bundle<'a> {
    // A bundle, within LIMIT.
    bytes: &'a [u8],
    // The number of its messages.
    len: usize,
}

impl<'a> Bundle<'a> {
    /// The most messages of one bundle.
    pub const MOST: usize = 4096;

    /// Judges whether bytes are a bundle.
    ///
    /// # Errors
    ///
    /// [`Refusal::TooLong`], where they are more than [`LIMIT`](crate::LIMIT); [`Refusal::NotABundle`], where they are none.
    pub fn from_bytes(bytes: &'a [u8]) -> Result<Self, Refusal> {
        let len = archive::bundle_count(bytes)?;
        Ok(Bundle { bytes, len })
    }

    /// The number of messages.
    pub fn len(&self) -> usize {
        self.len
    }

    /// Whether there are no messages.
    pub fn is_empty(&self) -> bool {
        self.len == 0
    }

    /// Message `k`, counted from 0; none past the last.
    ///
    /// The archive judges the whole header in each call, which for 4,096 messages takes some microseconds.
    pub fn get(&self, k: usize) -> Option<&'a [u8]> {
        let part = archive::bundle_message(self.bytes, k).ok()??;
        Some(&self.bytes[part])
    }

    /// The messages, in order.
    pub fn iter(&self) -> impl Iterator<Item = &'a [u8]> + 'a {
        let bundle = *self;
        (0..bundle.len).map_while(move |k| bundle.get(k))
    }

    /// How many trailers of which token the messages have, and how many messages have none.
    ///
    /// ```
    /// use sluicepod::{write_bundle, Bundle};
    ///
    /// let input = b"Bus 7\n\nVehicle: 7\nSigned-off-by: M. Okafor\nAll well.\n";
    /// let bytes = write_bundle(input, &[0..43, 43..53])?;
    /// let report = Bundle::from_bytes(&bytes)?.report();
    /// assert_eq!(report.counts, [1, 0, 0, 0, 0, 0, 1]);
    /// assert_eq!(report.without, 1);
    /// # Ok::<(), sluicepod::Refusal>(())
    /// ```
    pub fn report(&self) -> Report {
        // `from_bytes` has judged the bytes, and by the proved statement both calls judge alike.
        archive::bundle_report(self.bytes).unwrap_or_default()
    }
}

/// The report of a bundle: eight numbers.
///
/// Reports add up: the report of two bundles' messages together is the sum of their reports, whatever the order of the
/// messages. So each machine may add up its own bundles, and then the sums are added.
///
/// ```
/// use sluicepod::Report;
///
/// let nights = [
///     Report { counts: [2, 0, 0, 0, 0, 0, 18], without: 6 },
///     Report { counts: [0, 1, 1, 1, 1, 1, 1], without: 1 },
/// ];
/// let both: Report = nights.into_iter().sum();
/// assert_eq!(both, nights[0] + nights[1]);
/// assert_eq!(both.to_string(), "2\n1\n1\n1\n1\n1\n19\n7\n");
/// ```
#[derive(PartialEq, Eq, Debug, Hash, Clone, Copy, Default)]
pub struct Report {
    /// The trailers with the tokens Signed-off-by, Co-authored-by, Assisted-by, Acked-by, Reviewed-by and Tested-by, ASCII
    /// case aside, and then all others. They sum to the number of trailers.
    pub counts: [usize; 7],
    /// The messages without trailers.
    pub without: usize,
}

impl Add for Report {
    type Output = Report;

    fn add(self, other: Report) -> Report {
        let mut sum = self;
        for (count, more) in sum.counts.iter_mut().zip(other.counts) {
            *count += more;
        }
        sum.without += other.without;
        sum
    }
}

impl Sum for Report {
    fn sum<I: Iterator<Item = Report>>(reports: I) -> Report {
        reports.fold(Report::default(), Add::add)
    }
}

/// The eight numbers, each on a line, as the program `report` prints them.
impl fmt::Display for Report {
    fn fmt(&self, f: &mut fmt::Formatter<'_>) -> fmt::Result {
        self.counts
            .iter()
            .chain([&self.without])
            .try_for_each(|number| writeln!(f, "{}", number))
    }
}
