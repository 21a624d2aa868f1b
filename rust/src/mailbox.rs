#[cfg(feature = "alloc")]
use crate::TrailerRef;
use crate::{archive, Refusal};

/// A mailbox: a name and an address, each a part of the value.
#[derive(PartialEq, Eq, Debug, Hash, Ord, PartialOrd, Clone, Copy)]
pub struct Mailbox<'a> {
    /// From the first word's start to the last one's end, with quotes, and with white space and comments between words;
    /// empty where there are no words.
    pub name: &'a [u8],
    /// From the first dot-atom's start to the second's end, with white space and comments around the `@`.
    pub address: &'a [u8],
}

/// The name and the address of an unfolded value that is an RFC 5322 mailbox with angle brackets.
///
/// Words, atoms or quoted strings, may stand before the `<`; between the brackets a dot-atom, `@` and a dot-atom; before,
/// between and after all of these white space and comments, eight deep at most. No obsolete form counts: `A. Doe <a@b>` is
/// no mailbox, `"A. Doe" <a@b>` is.
///
/// ```
/// use sluicepod::{mailbox, Refusal};
///
/// let signer = mailbox(b"Ada Doe (night shift) <ada@depot.example>")?;
/// assert_eq!(signer.name, b"Ada Doe");
/// assert_eq!(signer.address, b"ada@depot.example");
/// assert_eq!(mailbox(b"A. Doe <ada@depot.example>"), Err(Refusal::NotAMailbox { at: 1 }));
/// # Ok::<(), Refusal>(())
/// ```
///
/// # Errors
///
/// [`Refusal::TooLong`], where the value is longer than [`LIMIT`](crate::LIMIT); [`Refusal::NinthComment`] and
/// [`Refusal::NotAMailbox`], with the place of the first byte with which no mailbox goes on, or the value's length.
pub fn mailbox(value: &[u8]) -> Result<Mailbox<'_>, Refusal> {
    let (name, address) = archive::mailbox(value)?;
    Ok(Mailbox {
        name: &value[name],
        address: &value[address],
    })
}

#[cfg(feature = "alloc")]
impl TrailerRef<'_> {
    /// The name and the address of the value, where it is a [`mailbox`](crate::mailbox()).
    ///
    /// ```
    /// use sluicepod::BodyRef;
    ///
    /// let body = BodyRef::from_bytes(b"Vehicle: 7\nSigned-off-by: Ada Doe\n <ada@depot.example>\n")?;
    /// let trailers: Vec<_> = body.trailers().collect();
    /// assert_eq!(trailers[0].mailbox(), None);
    /// assert_eq!(trailers[1].mailbox().unwrap().address, b"ada@depot.example");
    /// # Ok::<(), sluicepod::Refusal>(())
    /// ```
    pub fn mailbox(&self) -> Option<Mailbox<'_>> {
        mailbox(&self.value).ok()
    }
}
