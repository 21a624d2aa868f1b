//! The calls of the archive, as include/sluicepod.h declares them, and for each a function that lends it slices and
//! reads the numbers of its answer. All `unsafe` code of the crate is here.
//!
//! Each call is sound for the same reasons. Its pointers are those of slices and of an array, each with its length:
//! good for that length and never null, as the header asks; that of an empty slice dangles, but is not null. What it
//! writes to, `out`, `result` and a table, is held by `&mut`, so it overlaps nothing else that is lent. And it is proved of it
//! that on all numbers and bytes it stays inside what it is lent, and ends. A table of records is lent as numbers: `listed`
//! says why it may be.

use core::{mem, ops::Range};

use crate::{Cursor, Ending, Field, Foot, Listed, Place, Reading, Record, Refusal, Report, Step};

/// Which tokens are meant, by the header's numbers. Those of the filters are asked for where there is a heap.
#[derive(Clone, Copy)]
#[cfg_attr(not(feature = "alloc"), allow(dead_code))]
#[repr(u32)]
pub enum Kind {
    All = 0,
    SignedOffBy = 1,
    CoAuthoredBy = 2,
    AssistedBy = 3,
    AckedBy = 4,
    ReviewedBy = 5,
    TestedBy = 6,
    Attribution = 7,
    Author = 8,
}

/// A step of the block walk: the ends of the message and of the block, if it is not at the end, and the position and the
/// start to go on from.
pub struct BlockStep {
    pub ends: Option<(usize, usize)>,
    pub next: (usize, usize),
}

/// The title's end and, where there is a body, its start.
pub fn title_and_body(message: &[u8]) -> Result<(usize, Option<usize>), Refusal> {
    let answer = ask(|result, len| unsafe { sluicepod_title_and_body(message.as_ptr(), message.len(), result, len) })?;
    Ok(match answer {
        [2, title_end, body_start, ..] => (title_end, Some(body_start)),
        [_, title_end, ..] => (title_end, None),
    })
}

/// The summary of a title.
pub fn summary(title: &[u8], out: &mut [u8]) -> Result<Place, Refusal> {
    let [_, held, start, end, ..] = ask(|result, len| unsafe {
        sluicepod_summary(title.as_ptr(), title.len(), out.as_mut_ptr(), out.len(), result, len)
    })?;
    Ok(place(held, start, end))
}

/// The summary of a whole message.
pub fn message_summary(message: &[u8], out: &mut [u8]) -> Result<Place, Refusal> {
    let [_, held, start, end, ..] = ask(|result, len| unsafe {
        sluicepod_message_summary(
            message.as_ptr(),
            message.len(),
            out.as_mut_ptr(),
            out.len(),
            result,
            len,
        )
    })?;
    Ok(place(held, start, end))
}

/// Where the trailer block of a body starts, and how the body's last line ends that is not blank.
pub fn block_start(body: &[u8]) -> Result<(usize, Ending), Refusal> {
    let [_, start, number, ..] =
        ask(|result, len| unsafe { sluicepod_block_start(body.as_ptr(), body.len(), result, len) })?;
    Ok((start, ending(number)))
}

/// Where the walk of a message's trailers begins.
pub fn message_trailers(message: &[u8]) -> Result<Cursor, Refusal> {
    let [_, at, line, ..] =
        ask(|result, len| unsafe { sluicepod_message_trailers(message.as_ptr(), message.len(), result, len) })?;
    Ok(Cursor { at, line })
}

/// The cursor of the place `at`.
pub fn cursor_at(input: &[u8], at: usize) -> Result<Cursor, Refusal> {
    let [_, at, line, ..] =
        ask(|result, len| unsafe { sluicepod_cursor_at(input.as_ptr(), input.len(), at, result, len) })?;
    Ok(Cursor { at, line })
}

/// The next trailer of the kind from the cursor on.
pub fn next_trailer(body: &[u8], cursor: Cursor, kind: Kind, out: &mut [u8]) -> Result<Step, Refusal> {
    let answer = ask(|result, len| unsafe {
        sluicepod_next_trailer(
            body.as_ptr(),
            body.len(),
            cursor.at,
            cursor.line,
            kind as u32,
            out.as_mut_ptr(),
            out.len(),
            result,
            len,
        )
    })?;
    Ok(match answer {
        [9, token_start, token_end, held, start, end, at, number, line, next_line, ..] => Step {
            record: Some(record([token_start, token_end, held, start, end, number, line])),
            next: Cursor { at, line: next_line },
        },
        [_, at, line, ..] => Step {
            record: None,
            next: Cursor { at, line },
        },
    })
}

/// The last trailer of a body that has the name.
pub fn find_trailer(body: &[u8], name: &[u8], out: &mut [u8]) -> Result<Option<Record>, Refusal> {
    let answer = ask(|result, len| unsafe {
        sluicepod_find_trailer(
            body.as_ptr(),
            body.len(),
            name.as_ptr(),
            name.len(),
            out.as_mut_ptr(),
            out.len(),
            result,
            len,
        )
    })?;
    Ok(match answer {
        [7, token_start, token_end, held, start, end, number, line, ..] => {
            Some(record([token_start, token_end, held, start, end, number, line]))
        }
        _ => None,
    })
}

/// All trailers from the cursor on.
pub fn list_from(input: &[u8], at: Cursor, table: &mut [Record], out: &mut [u8]) -> Result<Listed, Refusal> {
    let [_, records, bytes, ..] = listed(table, |table, table_len, result, len| unsafe {
        sluicepod_list_from(
            input.as_ptr(),
            input.len(),
            at.at,
            at.line,
            table,
            table_len,
            out.as_mut_ptr(),
            out.len(),
            result,
            len,
        )
    })?;
    Ok(Listed { records, bytes })
}

/// The same, with the records as numbers: `record` gives the record of some.
#[cfg(feature = "alloc")]
pub fn list_numbers(
    input: &[u8],
    at: Cursor,
    table: &mut [[usize; RECORD_LEN]],
    out: &mut [u8],
) -> Result<Listed, Refusal> {
    let table = table.as_flattened_mut();
    let [_, records, bytes, ..] = ask(|result, len| unsafe {
        sluicepod_list_from(
            input.as_ptr(),
            input.len(),
            at.at,
            at.line,
            table.as_mut_ptr(),
            table.len(),
            out.as_mut_ptr(),
            out.len(),
            result,
            len,
        )
    })?;
    Ok(Listed { records, bytes })
}

/// All trailers of a message in a reading.
pub fn list_trailers(
    message: &[u8],
    reading: Reading,
    table: &mut [Record],
    out: &mut [u8],
) -> Result<Listed, Refusal> {
    let number = reading_number(reading);
    let [_, records, bytes, ..] = listed(table, |table, table_len, result, len| unsafe {
        sluicepod_list_trailers(
            message.as_ptr(),
            message.len(),
            number,
            table,
            table_len,
            out.as_mut_ptr(),
            out.len(),
            result,
            len,
        )
    })?;
    Ok(Listed { records, bytes })
}

/// All trailers of a body of which the last bytes are lent, or all of it.
pub fn list_foot(tail: &[u8], whole: bool, table: &mut [Record], out: &mut [u8]) -> Result<Foot, Refusal> {
    let [_, records, bytes, lines, ..] = listed(table, |table, table_len, result, len| unsafe {
        sluicepod_list_foot(
            tail.as_ptr(),
            tail.len(),
            u32::from(whole),
            table,
            table_len,
            out.as_mut_ptr(),
            out.len(),
            result,
            len,
        )
    })?;
    Ok(Foot { records, bytes, lines })
}

/// The next block from `at` on, where the body's trailer block starts at `start`.
pub fn next_block(body: &[u8], at: usize, start: usize) -> Result<BlockStep, Refusal> {
    let answer = ask(|result, len| unsafe { sluicepod_next_block(body.as_ptr(), body.len(), at, start, result, len) })?;
    Ok(match answer {
        [4, message_end, end, at, start, ..] => BlockStep {
            ends: Some((message_end, end)),
            next: (at, start),
        },
        [_, at, start, ..] => BlockStep {
            ends: None,
            next: (at, start),
        },
    })
}

/// Whether a token is of the kind.
#[cfg(feature = "alloc")]
pub fn is_of_kind(token: &[u8], kind: Kind) -> Result<bool, Refusal> {
    let [_, yes, ..] = ask(|result, len| unsafe {
        sluicepod_is_of_kind(token.as_ptr(), token.len(), 0, token.len(), kind as u32, result, len)
    })?;
    Ok(yes == 1)
}

/// Where the name and the content of a header line stand, if there is one of the number.
pub fn header_line(content: &[u8], number: usize) -> Result<Option<(Range<usize>, Range<usize>)>, Refusal> {
    let answer =
        ask(|result, len| unsafe { sluicepod_header_line(content.as_ptr(), content.len(), number, result, len) })?;
    Ok(match answer {
        [4, name_start, name_end, start, end, ..] => Some((name_start..name_end, start..end)),
        _ => None,
    })
}

/// Where the message of a commit object stands.
pub fn commit_message(content: &[u8]) -> Result<Range<usize>, Refusal> {
    let [_, start, end, ..] =
        ask(|result, len| unsafe { sluicepod_commit_message(content.as_ptr(), content.len(), result, len) })?;
    Ok(start..end)
}

/// Where the name and the address of a mailbox stand in the value.
pub fn mailbox(value: &[u8]) -> Result<(Range<usize>, Range<usize>), Refusal> {
    let [_, name_start, name_end, start, end, ..] =
        ask(|result, len| unsafe { sluicepod_mailbox(value.as_ptr(), value.len(), result, len) })?;
    Ok((name_start..name_end, start..end))
}

/// Writes the bundle of the messages that the ranges lend, start and end in turn; its length.
#[cfg(feature = "alloc")]
pub fn write_bundle(input: &[u8], ranges: &[usize], out: &mut [u8]) -> Result<usize, Refusal> {
    let [_, len, ..] = ask(|result, result_len| unsafe {
        sluicepod_write_bundle(
            input.as_ptr(),
            input.len(),
            ranges.as_ptr(),
            ranges.len(),
            out.as_mut_ptr(),
            out.len(),
            result,
            result_len,
        )
    })?;
    Ok(len)
}

/// The number of messages of a bundle.
pub fn bundle_count(bundle: &[u8]) -> Result<usize, Refusal> {
    let [_, count, ..] =
        ask(|result, len| unsafe { sluicepod_bundle_count(bundle.as_ptr(), bundle.len(), result, len) })?;
    Ok(count)
}

/// Where message `k` of a bundle stands, if there is one.
pub fn bundle_message(bundle: &[u8], k: usize) -> Result<Option<Range<usize>>, Refusal> {
    let answer = ask(|result, len| unsafe { sluicepod_bundle_message(bundle.as_ptr(), bundle.len(), k, result, len) })?;
    Ok(match answer {
        [2, start, end, ..] => Some(start..end),
        _ => None,
    })
}

/// The report of a bundle.
pub fn bundle_report(bundle: &[u8]) -> Result<Report, Refusal> {
    let [_, signed, co_authored, assisted, acked, reviewed, tested, rest, without, ..] =
        ask(|result, len| unsafe { sluicepod_bundle_report(bundle.as_ptr(), bundle.len(), result, len) })?;
    Ok(Report {
        counts: [signed, co_authored, assisted, acked, reviewed, tested, rest],
        without,
    })
}

/// Where a message ends in a reading.
pub fn message_end(message: &[u8], reading: Reading) -> Result<usize, Refusal> {
    let number = reading_number(reading);
    let [_, end, ..] =
        ask(|result, len| unsafe { sluicepod_message_end(message.as_ptr(), message.len(), number, result, len) })?;
    Ok(end)
}

/// The closing note of an entry: where its vehicle stands, its count, and whether its state is complete.
pub fn closing_note(message: &[u8], reading: Reading) -> Result<(Range<usize>, usize, bool), Refusal> {
    let number = reading_number(reading);
    let [_, start, end, records, complete, ..] =
        ask(|result, len| unsafe { sluicepod_closing_note(message.as_ptr(), message.len(), number, result, len) })?;
    Ok((start..end, records, complete == 1))
}

/// Whether the unit may erase.
pub fn may_erase(message: &[u8], reading: Reading, received: usize) -> Result<bool, Refusal> {
    let number = reading_number(reading);
    let [_, yes, ..] = ask(|result, len| unsafe {
        sluicepod_may_erase(message.as_ptr(), message.len(), number, received, result, len)
    })?;
    Ok(yes == 1)
}

/// A reading, by the header's number.
fn reading_number(reading: Reading) -> u32 {
    match reading {
        Reading::Whole => 0,
        Reading::AboveDivider => 1,
    }
}

/// A field, by the header's number.
fn field(number: usize) -> Field {
    match number {
        0 => Field::Vehicle,
        1 => Field::Records,
        _ => Field::OffloadState,
    }
}

/// Writes the message with one trailer more; its length.
pub fn add_trailer(message: &[u8], token: &[u8], value: &[u8], out: &mut [u8]) -> Result<usize, Refusal> {
    let [_, len, ..] = ask(|result, result_len| unsafe {
        sluicepod_add_trailer(
            message.as_ptr(),
            message.len(),
            token.as_ptr(),
            token.len(),
            value.as_ptr(),
            value.len(),
            out.as_mut_ptr(),
            out.len(),
            result,
            result_len,
        )
    })?;
    Ok(len)
}

/// How many entries the calls ask of `result`: the first says how many values there are, and they follow it.
const RESULT_LEN: usize = 16;

/// Lends `result` to a call, and gives back what it wrote there, or its refusal.
fn ask(call: impl FnOnce(*mut usize, usize) -> u32) -> Result<[usize; RESULT_LEN], Refusal> {
    let mut result = [0; RESULT_LEN];
    match call(result.as_mut_ptr(), result.len()) {
        0 => Ok(result),
        1 => Err(Refusal::TooLong),
        2 => Err(Refusal::BadPlace),
        3 => Err(match result {
            [2, records, bytes, ..] => Refusal::NoRoomForAll { records, bytes },
            [_, needed, ..] => Refusal::NoRoom { needed },
        }),
        4 => Err(Refusal::ShortTable {
            records: result[1],
            bytes: result[2],
        }),
        5 => Err(Refusal::BadToken),
        6 => Err(Refusal::BadValue),
        7 => Err(Refusal::NothingToStandOn),
        8 => Err(Refusal::MoreBytes),
        9 => Err(Refusal::Missing(field(result[1]))),
        10 => Err(Refusal::Repeated(field(result[1]))),
        11 => Err(Refusal::BadContent(field(result[1]))),
        12 => Err(Refusal::NotABundle),
        13 => Err(Refusal::BadHeader { line: result[1] }),
        14 => Err(Refusal::NotAMailbox { at: result[1] }),
        15 => Err(Refusal::NinthComment { at: result[1] }),
        // The others are for a number that is no `Kind` or no `Reading`, and for fewer entries than RESULT_LEN.
        code => unreachable!("the archive's code {}", code),
    }
}

/// How many numbers a record has in a table.
pub const RECORD_LEN: usize = 7;

/// The numbers of a record take just the memory of a `Record`.
const _: () = assert!(
    mem::size_of::<Record>() == mem::size_of::<[usize; RECORD_LEN]>()
        && mem::align_of::<Record>() == mem::align_of::<[usize; RECORD_LEN]>()
);

/// Lends a table and `result` to a call that lists, and gives back what it wrote to `result`, or its refusal. The table is lent
/// as numbers: each record's are written to its own memory, and there the record takes their place.
fn listed(
    table: &mut [Record],
    call: impl FnOnce(*mut usize, usize, *mut usize, usize) -> u32,
) -> Result<[usize; RESULT_LEN], Refusal> {
    let len = table.len();
    let records = table.as_mut_ptr();
    let numbers = records.cast::<[usize; RECORD_LEN]>();
    let answer = ask(|result, result_len| call(numbers.cast(), len * RECORD_LEN, result, result_len))?;
    for k in 0..answer[1] {
        // SAFETY: it is proved of the call that a refusal leaves every entry as it was, and that an answer has written the
        // numbers of so many records, which the table has, and nothing behind them. So these are numbers, in memory of the
        // size and the alignment of a record. Nothing between the call and here looks at the table, or panics.
        unsafe { records.add(k).write(record(numbers.add(k).read())) };
    }
    Ok(answer)
}

/// The record of its numbers, in the header's order.
pub fn record([token_start, token_end, held, start, end, number, line]: [usize; RECORD_LEN]) -> Record {
    Record {
        token: token_start..token_end,
        value: place(held, start, end),
        ending: ending(number),
        line,
    }
}

fn place(held: usize, start: usize, end: usize) -> Place {
    match held {
        0 => Place::Message(start..end),
        _ => Place::Buffer(start..end),
    }
}

/// The ending that has the header's number.
fn ending(number: usize) -> Ending {
    match number {
        0 => Ending::Lf,
        1 => Ending::CrLf,
        2 => Ending::Cr,
        _ => Ending::None,
    }
}

extern "C" {
    fn sluicepod_title_and_body(message: *const u8, message_len: usize, result: *mut usize, result_len: usize) -> u32;
    fn sluicepod_summary(
        title: *const u8,
        title_len: usize,
        out: *mut u8,
        out_len: usize,
        result: *mut usize,
        result_len: usize,
    ) -> u32;
    fn sluicepod_message_summary(
        message: *const u8,
        message_len: usize,
        out: *mut u8,
        out_len: usize,
        result: *mut usize,
        result_len: usize,
    ) -> u32;
    fn sluicepod_block_start(body: *const u8, body_len: usize, result: *mut usize, result_len: usize) -> u32;
    fn sluicepod_message_trailers(message: *const u8, message_len: usize, result: *mut usize, result_len: usize)
        -> u32;
    fn sluicepod_cursor_at(input: *const u8, input_len: usize, at: usize, result: *mut usize, result_len: usize)
        -> u32;
    fn sluicepod_next_trailer(
        body: *const u8,
        body_len: usize,
        at: usize,
        line: usize,
        kind: u32,
        out: *mut u8,
        out_len: usize,
        result: *mut usize,
        result_len: usize,
    ) -> u32;
    fn sluicepod_find_trailer(
        body: *const u8,
        body_len: usize,
        name: *const u8,
        name_len: usize,
        out: *mut u8,
        out_len: usize,
        result: *mut usize,
        result_len: usize,
    ) -> u32;
    fn sluicepod_list_from(
        input: *const u8,
        input_len: usize,
        at: usize,
        line: usize,
        table: *mut usize,
        table_len: usize,
        out: *mut u8,
        out_len: usize,
        result: *mut usize,
        result_len: usize,
    ) -> u32;
    fn sluicepod_list_trailers(
        message: *const u8,
        message_len: usize,
        reading: u32,
        table: *mut usize,
        table_len: usize,
        out: *mut u8,
        out_len: usize,
        result: *mut usize,
        result_len: usize,
    ) -> u32;
    fn sluicepod_list_foot(
        tail: *const u8,
        tail_len: usize,
        whole: u32,
        table: *mut usize,
        table_len: usize,
        out: *mut u8,
        out_len: usize,
        result: *mut usize,
        result_len: usize,
    ) -> u32;
    fn sluicepod_next_block(
        body: *const u8,
        body_len: usize,
        at: usize,
        start: usize,
        result: *mut usize,
        result_len: usize,
    ) -> u32;
    #[cfg(feature = "alloc")]
    fn sluicepod_is_of_kind(
        input: *const u8,
        input_len: usize,
        start: usize,
        end: usize,
        kind: u32,
        result: *mut usize,
        result_len: usize,
    ) -> u32;
    fn sluicepod_header_line(
        content: *const u8,
        content_len: usize,
        number: usize,
        result: *mut usize,
        result_len: usize,
    ) -> u32;
    fn sluicepod_commit_message(content: *const u8, content_len: usize, result: *mut usize, result_len: usize) -> u32;
    fn sluicepod_mailbox(value: *const u8, value_len: usize, result: *mut usize, result_len: usize) -> u32;
    #[cfg(feature = "alloc")]
    fn sluicepod_write_bundle(
        input: *const u8,
        input_len: usize,
        ranges: *const usize,
        ranges_len: usize,
        out: *mut u8,
        out_len: usize,
        result: *mut usize,
        result_len: usize,
    ) -> u32;
    fn sluicepod_bundle_count(bundle: *const u8, bundle_len: usize, result: *mut usize, result_len: usize) -> u32;
    fn sluicepod_bundle_message(
        bundle: *const u8,
        bundle_len: usize,
        k: usize,
        result: *mut usize,
        result_len: usize,
    ) -> u32;
    fn sluicepod_bundle_report(bundle: *const u8, bundle_len: usize, result: *mut usize, result_len: usize) -> u32;
    fn sluicepod_message_end(
        message: *const u8,
        message_len: usize,
        reading: u32,
        result: *mut usize,
        result_len: usize,
    ) -> u32;
    fn sluicepod_closing_note(
        message: *const u8,
        message_len: usize,
        reading: u32,
        result: *mut usize,
        result_len: usize,
    ) -> u32;
    fn sluicepod_may_erase(
        message: *const u8,
        message_len: usize,
        reading: u32,
        received: usize,
        result: *mut usize,
        result_len: usize,
    ) -> u32;
    fn sluicepod_add_trailer(
        message: *const u8,
        message_len: usize,
        token: *const u8,
        token_len: usize,
        value: *const u8,
        value_len: usize,
        out: *mut u8,
        out_len: usize,
        result: *mut usize,
        result_len: usize,
    ) -> u32;
}
