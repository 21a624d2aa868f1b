//! Calls that write into a lent buffer, asked with every room that matters: none, one byte short, exactly full, more.
//!
//! The original has no buffers, so this is not compared: a success writes the answer at the front and keeps every byte
//! behind it, a refusal writes nothing and names the exact length needed.

use std::fmt::Debug;

/// What a call answered, and what it did with the buffer.
#[derive(Clone, Debug, PartialEq, Eq)]
pub enum Said<T> {
    Answer { answer: T, written: usize },
    NoRoom { needed: usize },
}

/// Asks with every room. Gives the answer and the bytes written for it, or says what the call did wrong.
pub fn ask<T: PartialEq + Debug>(call: impl Fn(&mut [u8]) -> Said<T>) -> Result<(T, Vec<u8>), String> {
    match lend(&call, 0, 0)? {
        (Said::Answer { answer, written: 0 }, _) => {
            for fill in FILLS {
                expect(
                    &call,
                    9,
                    fill,
                    &Said::Answer {
                        answer: &answer,
                        written: 0,
                    },
                )?;
            }
            Ok((answer, Vec::new()))
        }
        (Said::NoRoom { needed: 0 }, _) => Err("refuses for room though none is needed".to_owned()),
        (Said::NoRoom { needed }, _) => {
            for fill in FILLS {
                for room in [needed / 2, needed - 1] {
                    expect(&call, room, fill, &Said::NoRoom { needed })?;
                }
            }
            let (said, bytes) = lend(&call, needed, 0)?;
            let Said::Answer { answer, written } = said else {
                return Err(format!("refuses the room of {needed} bytes that it asked for"));
            };
            if written != needed {
                return Err(format!("asks for {needed} bytes and writes {written}"));
            }
            for fill in FILLS {
                for room in [needed, needed + 9] {
                    let again = expect(
                        &call,
                        room,
                        fill,
                        &Said::Answer {
                            answer: &answer,
                            written,
                        },
                    )?;
                    if again != bytes {
                        return Err(format!(
                            "writes other bytes into a buffer of {room}: {again:?}, not {bytes:?}"
                        ));
                    }
                }
            }
            Ok((answer, bytes))
        }
        (said, _) => Err(format!("says that it wrote into no buffer: {said:?}")),
    }
}

/// What a buffer holds before a call. Two, so that a byte which is written shows in one of them.
const FILLS: [u8; 2] = [0xa5, 0x5a];

/// One call. Gives what it said and wrote; every other byte of the buffer must still be there.
fn lend<T: Debug>(call: &impl Fn(&mut [u8]) -> Said<T>, room: usize, fill: u8) -> Result<(Said<T>, Vec<u8>), String> {
    let mut buffer = vec![fill; room];
    let said = call(&mut buffer);
    let written = match said {
        Said::Answer { written, .. } => written,
        Said::NoRoom { .. } => 0,
    };
    if written > room {
        return Err(format!("says that it wrote {written} bytes into a buffer of {room}"));
    }
    if buffer[written..].iter().any(|&byte| byte != fill) {
        return Err(format!(
            "changes a buffer of {room} behind the {written} bytes of its answer"
        ));
    }
    buffer.truncate(written);
    Ok((said, buffer))
}

/// One call that must say this; what it wrote.
fn expect<T: PartialEq + Debug>(
    call: &impl Fn(&mut [u8]) -> Said<T>,
    room: usize,
    fill: u8,
    wanted: &Said<&T>,
) -> Result<Vec<u8>, String> {
    let (said, bytes) = lend(call, room, fill)?;
    let same = match (&said, wanted) {
        (
            Said::Answer { answer, written },
            Said::Answer {
                answer: other,
                written: w,
            },
        ) => answer == *other && written == w,
        (Said::NoRoom { needed }, Said::NoRoom { needed: n }) => needed == n,
        _ => false,
    };
    if !same {
        return Err(format!("with a buffer of {room} says {said:?}, not {wanted:?}"));
    }
    Ok(bytes)
}

#[cfg(test)]
mod tests {
    use super::*;

    /// A call as it should be: the answer 7, and three bytes for it.
    fn good(buffer: &mut [u8]) -> Said<usize> {
        if buffer.len() < 3 {
            return Said::NoRoom { needed: 3 };
        }
        buffer[..3].copy_from_slice(b"abc");
        Said::Answer { answer: 7, written: 3 }
    }

    #[test]
    fn a_good_call_passes() {
        assert_eq!(ask(good), Ok((7, b"abc".to_vec())));
        assert_eq!(ask(|_| Said::Answer { answer: 8, written: 0 }), Ok((8, Vec::new())));
    }

    #[test]
    fn a_call_that_touches_what_it_should_not_is_caught() {
        let behind = |buffer: &mut [u8]| {
            let said = good(buffer);
            if let Some(byte) = buffer.get_mut(3) {
                *byte = 0xa5;
            }
            said
        };
        assert!(ask(behind).is_err());
        let before_refusing = |buffer: &mut [u8]| {
            if let Some(byte) = buffer.first_mut() {
                *byte = b'a';
            }
            good(buffer)
        };
        assert!(ask(before_refusing).is_err());
        let though_nothing_is_written = |buffer: &mut [u8]| {
            buffer.fill(0);
            Said::Answer { answer: 8, written: 0 }
        };
        assert!(ask(though_nothing_is_written).is_err());
    }

    #[test]
    fn a_call_that_writes_nothing_is_caught() {
        let idle = |buffer: &mut [u8]| good(&mut buffer.to_vec());
        assert!(ask(idle).is_err());
    }

    #[test]
    fn a_wrong_length_is_caught() {
        let asks_for = |needed: usize| {
            move |buffer: &mut [u8]| match good(buffer) {
                Said::NoRoom { .. } => Said::NoRoom { needed },
                said => said,
            }
        };
        for needed in [0, 1, 2, 4, 5] {
            assert!(ask(asks_for(needed)).is_err(), "{needed}");
        }
        assert!(ask(asks_for(3)).is_ok());
    }

    #[test]
    fn an_answer_that_hangs_on_the_room_is_caught() {
        let other = |buffer: &mut [u8]| match good(buffer) {
            Said::Answer { written, .. } => Said::Answer {
                answer: buffer.len(),
                written,
            },
            refused => refused,
        };
        assert!(ask(other).is_err());
    }
}
