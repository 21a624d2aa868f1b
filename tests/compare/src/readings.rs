//! The port in the second reading, beside the original on the cut message.

use crate::{
    answers::{Answer, Cursor, NoReading, LIMIT},
    archive::{self, ABOVE_DIVIDER, NO_READING, OK, RESULT_LEN, SHORT_RESULT, TOO_LONG, WHOLE},
    divider, original, ours,
};

/// The original's answers about the message above its first divider. The limit is asked of the message uncut.
pub fn original(message: &[u8]) -> Answer {
    if message.len() > LIMIT {
        return Err(NoReading::Refused(1));
    }
    original::answer(divider::above(message))
}

/// The port's answers about the message up to the end that it gives. Each call with a reading must say of the uncut message what
/// the call without one says: in the first reading of all of it, in the second of the message up to there.
pub fn ours(message: &[u8]) -> Answer {
    let whole = end(message, WHOLE)?;
    let above = end(message, ABOVE_DIVIDER)?;
    if end(message, 2)? != Err(NO_READING) {
        return broke("a number that is no reading's is taken");
    }
    let (Ok(len), Ok(end)) = (whole, above) else {
        let refused = whole == Err(TOO_LONG) && above == Err(TOO_LONG);
        let all = [WHOLE, ABOVE_DIVIDER]
            .iter()
            .all(|&reading| calls_in(message, reading, 9).iter().all(|said| said.code == TOO_LONG));
        return match refused && all {
            true => Err(NoReading::Refused(1)),
            false => broke("not every call refuses 1"),
        };
    };
    if len != message.len() || end > len {
        return broke("the end is past the message, or all of it is not all");
    }
    for (reading, end) in [(WHOLE, len), (ABOVE_DIVIDER, end)] {
        for room in [0, 1, end / 2, end, 4 * end] {
            if calls_in(message, reading, room) != calls(&message[..end], room) {
                return broke("a call in a reading says other than the call of the message so read");
            }
        }
    }
    ours::answer(&message[..end])
}

fn broke<T>(how: &str) -> Result<T, NoReading> {
    Err(NoReading::Broke(how.to_owned()))
}

/// What stands in a result and in a buffer before a call.
const KEPT: usize = usize::MAX - 0x5a5a;
const FILL: u8 = 0xa5;

/// All that a call leaves: its code, its result, the table and the buffer.
#[derive(PartialEq, Eq)]
struct Left {
    code: u32,
    result: [usize; RESULT_LEN],
    table: Vec<usize>,
    out: Vec<u8>,
}

fn left(room: usize, call: impl FnOnce(&mut [u8], &mut [usize]) -> u32) -> Left {
    left_listed(room, |_, out, result| call(out, result))
}

/// As much room for numbers as for bytes.
fn left_listed(room: usize, call: impl FnOnce(&mut [usize], &mut [u8], &mut [usize]) -> u32) -> Left {
    let mut result = [KEPT; RESULT_LEN];
    let (mut table, mut out) = (vec![KEPT; room], vec![FILL; room]);
    let code = call(&mut table, &mut out, &mut result);
    Left {
        code,
        result,
        table,
        out,
    }
}

/// All trailers of a message, from where its walk begins.
fn listed(message: &[u8], table: &mut [usize], out: &mut [u8], result: &mut [usize]) -> u32 {
    let mut start = [KEPT; RESULT_LEN];
    archive::message_trailers(message, &mut start);
    let cursor = Cursor {
        at: start[1],
        line: start[2],
    };
    archive::list_from(message, cursor, table, out, result)
}

fn calls(message: &[u8], room: usize) -> [Left; 4] {
    [
        left_listed(room, |table, out, result| listed(message, table, out, result)),
        left(0, |_, result| archive::title_and_body(message, result)),
        left(room, |out, result| archive::message_summary(message, out, result)),
        left(0, |_, result| archive::message_trailers(message, result)),
    ]
}

fn calls_in(message: &[u8], reading: u32, room: usize) -> [Left; 4] {
    [
        left_listed(room, |table, out, result| {
            archive::list_trailers(message, reading, table, out, result)
        }),
        left(0, |_, result| archive::title_and_body_in(message, reading, result)),
        left(room, |out, result| {
            archive::message_summary_in(message, reading, out, result)
        }),
        left(0, |_, result| archive::message_trailers_in(message, reading, result)),
    ]
}

/// Where the message ends, or the code of a refusal.
fn end(message: &[u8], reading: u32) -> Result<Result<usize, u32>, NoReading> {
    if archive::message_end(message, reading, &mut [KEPT; RESULT_LEN - 1]) != SHORT_RESULT {
        return broke("a short result is taken");
    }
    let said = left(0, |_, result| archive::message_end(message, reading, result));
    let values = usize::from(said.code == OK);
    if said.result[0] != values || said.result[1 + values..].iter().any(|&entry| entry != KEPT) {
        return broke("other entries of a result are written");
    }
    Ok(if said.code == OK {
        Ok(said.result[1])
    } else {
        Err(said.code)
    })
}

#[cfg(test)]
mod tests {
    use super::*;
    use crate::{
        inputs::Plan,
        search::{compare, shrink},
    };

    const SHORT: Plan = Plan {
        seed: 1,
        deeper: -2,
        messages: 500,
        long: false,
    };

    /// A small input whose mail shows that messages are cut elsewhere.
    fn found(cut: impl Fn(&[u8]) -> &[u8]) -> Vec<u8> {
        let faulty = |message: &[u8]| original::answer(cut(message));
        let outcome = compare(
            &SHORT,
            |input| original(&divider::mail(input)),
            |input| faulty(&divider::mail(input)),
        );
        let mail = divider::mail(&outcome.found.expect("the fault is found").input);
        shrink(&mail, |message| original(message) != faulty(message))
    }

    #[test]
    fn other_dividers_are_found() {
        let tab = |line: &[u8]| divider::is_divider(line) || line.starts_with(b"---\t");
        assert_eq!(found(|message| divider::above_first(message, tab)), b"---\t");
        let hyphens = |line: &[u8]| line.starts_with(b"---");
        assert_eq!(found(|message| divider::above_first(message, hyphens)).len(), 4);
        let with_lf = |line: &[u8]| divider::is_divider(line) && line.ends_with(b"\n");
        assert_eq!(found(|message| divider::above_first(message, with_lf)), b"---");
        assert_eq!(found(|message| message), b"---");
    }

    #[test]
    fn the_port_agrees_with_the_original_above_the_divider() {
        let outcome = compare(
            &SHORT,
            |input| original(&divider::mail(input)),
            |input| ours(&divider::mail(input)),
        );
        assert_eq!(outcome.found, None);
    }
}
