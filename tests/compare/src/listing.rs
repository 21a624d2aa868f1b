//! A listing of all trailers, held to the single steps, which are compared with the original: with tables and buffers of every
//! length that matters. A success writes the records and the values at the front and keeps all behind them; a refusal writes
//! nothing and names both counts.

use crate::{
    answers::Cursor,
    archive::{NO_ROOM, OK, RECORD_LEN, RESULT_LEN, SHORT_TABLE},
};

/// What stands in a table, in a buffer and in a result before a call.
const KEPT: usize = usize::MAX - 0x5a5a;
const FILL: u8 = 0xa5;

/// A table's numbers, and what is written to the buffer.
pub type Listed = (Vec<usize>, Vec<u8>);

/// What the single steps give from a cursor on, called until the end, or until one does not move on. Each is lent a cursor, a
/// buffer and a result.
pub fn stepped(input: &[u8], from: Cursor, step: impl Fn(Cursor, &mut [u8], &mut [usize]) -> u32) -> Listed {
    let (mut numbers, mut bytes) = (Vec::new(), Vec::new());
    let (mut out, mut result) = (vec![FILL; input.len()], [KEPT; RESULT_LEN]);
    let mut cursor = from;
    while step(cursor, &mut out, &mut result) == OK && result[0] == 9 && result[6] > cursor.at {
        let [_, token_start, token_end, held, start, end, at, ending, line, next_line, ..] = result;
        let used = if held == 1 { bytes.len() } else { 0 };
        if held == 1 {
            bytes.extend_from_slice(&out[start..end]);
        }
        numbers.extend([token_start, token_end, held, used + start, used + end, ending, line]);
        cursor = Cursor { at, line: next_line };
    }
    (numbers, bytes)
}

/// Holds a listing, which is lent a table, a buffer and a result, to what the steps gave. Says what it did wrong.
pub fn hold(
    (numbers, bytes): &Listed,
    list: impl Fn(&mut [usize], &mut [u8], &mut [usize]) -> u32,
) -> Result<(), String> {
    let (all, room) = (numbers.len(), bytes.len());
    // Numbers at a table's end that are too few for a record are not used.
    for (table_len, out_len) in [
        (all, room),
        (all + RECORD_LEN - 1, room + 9),
        (all + RECORD_LEN, room),
        (all.saturating_sub(1), room),
        (all / 2, room / 2),
        (0, 0),
        (all, room.saturating_sub(1)),
        (all + 1, room / 2),
    ] {
        let code = match (table_len < all, out_len < room) {
            (true, _) => SHORT_TABLE,
            (false, true) => NO_ROOM,
            (false, false) => OK,
        };
        let mut due = (vec![KEPT; table_len], vec![FILL; out_len], [KEPT; RESULT_LEN]);
        let (mut table, mut out, mut result) = due.clone();
        due.2[..3].copy_from_slice(&[2, all / RECORD_LEN, room]);
        if code == OK {
            due.0[..all].copy_from_slice(numbers);
            due.1[..room].copy_from_slice(bytes);
        }
        let said = list(&mut table, &mut out, &mut result);
        if said != code || (&table, &out, &result) != (&due.0, &due.1, &due.2) {
            return Err(format!(
                "a listing with a table of {table_len} and a buffer of {out_len}: code {said}"
            ));
        }
    }
    Ok(())
}
