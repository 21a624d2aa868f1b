//! A trailer added to a message: the port's call, and document 02's sentences over the original's reading.

use original::bstr::ByteSlice;

use crate::{
    answers::LIMIT,
    archive::{self, BAD_TOKEN, BAD_VALUE, NOTHING_TO_STAND_ON, NO_ROOM, OK, RESULT_LEN, TOO_LONG},
    original as theirs,
};

/// A new message, or the number of the refusal.
pub type Added = Result<Vec<u8>, u32>;

/// What the archive writes. The header's word on a buffer is held on the way: without room nothing is written, and behind what
/// is written every byte is kept.
pub fn ours(message: &[u8], token: &[u8], value: &[u8]) -> Added {
    let mut result = [0; RESULT_LEN];
    let code = archive::add_trailer(message, token, value, &mut [], &mut result);
    if code != NO_ROOM {
        assert_ne!(code, OK, "nothing is no message");
        return Err(code);
    }
    let needed = result[1];
    let mut out = vec![0xaa; needed + 3];
    assert_eq!(
        archive::add_trailer(message, token, value, &mut out[..needed - 1], &mut result),
        NO_ROOM
    );
    assert_eq!(result[1], needed);
    assert!(out.iter().all(|&byte| byte == 0xaa), "a refusal wrote");
    assert_eq!(archive::add_trailer(message, token, value, &mut out, &mut result), OK);
    assert_eq!(result[1], needed);
    assert_eq!(out[needed..], [0xaa; 3]);
    out.truncate(needed);
    Ok(out)
}

/// What document 02 says, sentence by sentence.
pub fn by_hand(message: &[u8], token: &[u8], value: &[u8]) -> Added {
    let token_byte = |byte: &u8| byte.is_ascii_alphanumeric() || *byte == b'-';
    if [message, token, value].iter().any(|input| input.len() > LIMIT) {
        return Err(TOO_LONG);
    }
    if token.is_empty() || !token.iter().all(token_byte) {
        return Err(BAD_TOKEN);
    }
    if value.contains(&b'\n') || value.trim() != value {
        return Err(BAD_VALUE);
    }
    let mut lines: Vec<&[u8]> = message.split_inclusive(|&byte| byte == b'\n').collect();
    while lines
        .last()
        .is_some_and(|line| line.iter().all(u8::is_ascii_whitespace))
    {
        lines.pop();
    }
    let last = lines.last().ok_or(NOTHING_TO_STAND_ON)?;
    let end: &[u8] = if last.ends_with(b"\r\n") { b"\r\n" } else { b"\n" };
    let mut out = lines.concat();
    if !last.ends_with(b"\n") {
        out.push(b'\n');
    }
    if !has_block(message) {
        out.extend_from_slice(end);
    }
    for piece in [token, b": ", value, end] {
        out.extend_from_slice(piece);
    }
    if out.len() > LIMIT {
        return Err(TOO_LONG);
    }
    Ok(out)
}

/// Whether the body had an accepted block, by the original.
fn has_block(message: &[u8]) -> bool {
    let Some(start) = theirs::title_and_body(message).1 else {
        return false;
    };
    let body = &message[start..];
    theirs::block_start(body) < body.len()
}

/// The trailers of a message by the original: the place, the token and the unfolded value of each.
pub fn read(message: &[u8]) -> Vec<(usize, Vec<u8>, Vec<u8>)> {
    let told = |trailer: &crate::answers::Trailer| {
        let token = trailer.token;
        (
            token.start,
            token.of(message).to_vec(),
            trailer.value.bytes(message).to_vec(),
        )
    };
    theirs::message_trailers(message).iter().map(told).collect()
}

#[cfg(test)]
mod tests {
    use super::*;
    use crate::{inputs::Plan, search};

    #[test]
    fn the_worked_examples() {
        let rows: [(&[u8], &[u8], &[u8], Added); 6] = [
            (b"t", b"A", b"v", Ok(b"t\n\nA: v\n".to_vec())),
            (b"t\r", b"A", b"v", Ok(b"t\r\n\nA: v\n".to_vec())),
            (b"t\r\n\r\n", b"A", b"v", Ok(b"t\r\n\r\nA: v\r\n".to_vec())),
            (b"t\n\nB: c\n\n \n", b"A", b"v", Ok(b"t\n\nB: c\nA: v\n".to_vec())),
            (b"", b"", b" ", Err(BAD_TOKEN)),
            (b"t", b"A", b"", Ok(b"t\n\nA: \n".to_vec())),
        ];
        for (message, token, value, wanted) in rows {
            assert_eq!(by_hand(message, token, value), wanted);
            assert_eq!(ours(message, token, value), wanted);
        }
    }

    /// A smallest message that the comparison finds where the port's answer is changed.
    fn found(fault: fn(&[u8], Vec<u8>) -> Vec<u8>) -> Vec<u8> {
        let plan = Plan {
            seed: 1,
            deeper: -3,
            messages: 200,
            long: false,
        };
        let faulty = |message: &[u8]| ours(message, b"A", b"v").map(|new| fault(message, new));
        let outcome = search::compare(&plan, |message| by_hand(message, b"A", b"v"), faulty);
        outcome.found.expect("the fault is found").shrunk
    }

    #[test]
    fn planted_faults_are_found() {
        let without_cr = |_: &[u8], mut new: Vec<u8>| {
            if new.ends_with(b"\r\n") {
                new.truncate(new.len() - 2);
                new.push(b'\n');
            }
            new
        };
        assert!(found(without_cr).ends_with(b"\r\n"));
        let glued = |message: &[u8], new: Vec<u8>| match message.ends_with(b"\n") {
            true => new,
            false => [message, b"A: v\n"].concat(),
        };
        assert!(!found(glued).ends_with(b"\n"));
        let below_a_cherry_pick =
            |message: &[u8], new: Vec<u8>| match message.ends_with(b"(cherry picked from commit 1)\n") {
                true => [message, b"\nA: v\n"].concat(),
                false => new,
            };
        assert!(found(below_a_cherry_pick).ends_with(b"(cherry picked from commit 1)\n"));
    }
}
