//! Values that are a part of the input, or are written to a buffer that is made for them.

use alloc::{borrow::Cow, vec, vec::Vec};

use crate::{Place, Refusal};

/// The room that a call is lent first. Most values that are written fit in it, and then the call is made once.
const NEAR: usize = 128;

/// The answer of a call that may write, and what it wrote: as many bytes of the buffer as `written` says. It is asked with a
/// small buffer, and where it needs a longer one, again with one of the length that it says: so it never refuses for want of
/// room.
pub fn with_room<T>(
    call: impl Fn(&mut [u8]) -> Result<T, Refusal>,
    written: impl Fn(&T) -> usize,
) -> Result<(T, Vec<u8>), Refusal> {
    let mut near = [0; NEAR];
    match call(&mut near) {
        Err(Refusal::NoRoom { needed }) => {
            let mut out = vec![0; needed];
            Ok((call(&mut out)?, out))
        }
        answer => {
            let answer = answer?;
            let out = near[..written(&answer)].to_vec();
            Ok((answer, out))
        }
    }
}

/// The value at a place. One that was written is all of `out`, as `with_room` gives it.
pub fn value(input: &[u8], place: Place, out: Vec<u8>) -> Cow<'_, [u8]> {
    match place {
        Place::Message(part) => Cow::Borrowed(&input[part]),
        Place::Buffer(_) => Cow::Owned(out),
    }
}
