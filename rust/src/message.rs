#[cfg(feature = "alloc")]
use {
    crate::{
        value::{value, with_room},
        Cursor, Trailers,
    },
    alloc::borrow::Cow,
};

use crate::{archive, BodyRef, Place, Refusal};

/// A message, as its title and its body.
///
/// ```
/// use sluicepod::MessageRef;
///
/// let message = MessageRef::from_bytes(b"Offload of bus 7,\nsecond run\n\nAll well.\n\nVehicle: 7\n")?;
/// assert_eq!(message.title, b"Offload of bus 7,\nsecond run");
/// assert_eq!(message.body, Some(&b"All well.\n\nVehicle: 7\n"[..]));
/// assert_eq!(&message.summary()[..], b"Offload of bus 7, second run");
/// assert_eq!(message.body().unwrap().without_trailer(), b"All well.");
/// # Ok::<(), sluicepod::Refusal>(())
/// ```
#[derive(PartialEq, Eq, Debug, Hash, Ord, PartialOrd, Clone, Copy)]
pub struct MessageRef<'a> {
    /// What stands before the first place where two line ends, each LF or CR LF, follow each other; all of the message
    /// where there is none.
    pub title: &'a [u8],
    /// What stands behind these two line ends, if anything does.
    pub body: Option<&'a [u8]>,
}

impl<'a> MessageRef<'a> {
    /// Splits a message into its title and its body.
    ///
    /// # Errors
    ///
    /// [`Refusal::TooLong`], where the message is longer than [`LIMIT`](crate::LIMIT).
    pub fn from_bytes(input: &'a [u8]) -> Result<Self, Refusal> {
        let (title_end, body_start) = archive::title_and_body(input)?;
        Ok(MessageRef {
            title: &input[..title_end],
            body: body_start.map(|start| &input[start..]),
        })
    }

    /// The summary of the title, in one line.
    ///
    /// The title is trimmed. In what is left, each LF becomes a space, and the blanks before it go; the blanks behind it
    /// stay. A title of one line gives a borrowed summary, one of several lines an owned summary.
    ///
    /// [`from_bytes`](MessageRef::from_bytes) gives no title longer than [`LIMIT`](crate::LIMIT). One that was put there
    /// by hand is given back as it stands; [`message_summary`] refuses it.
    #[cfg(feature = "alloc")]
    pub fn summary(&self) -> Cow<'a, [u8]> {
        let title = self.title;
        match with_room(|out| archive::summary(title, out), Place::written) {
            Ok((place, out)) => value(title, place, out),
            Err(_) => Cow::Borrowed(title),
        }
    }

    /// The body, with its trailers told from the rest.
    ///
    /// [`from_bytes`](MessageRef::from_bytes) gives no body longer than [`LIMIT`](crate::LIMIT). One that was put there
    /// by hand counts as none; [`BodyRef::from_bytes`] refuses it.
    pub fn body(&self) -> Option<BodyRef<'a>> {
        BodyRef::from_bytes(self.body?).ok()
    }
}

/// The summary of a title, in one line, where there is no heap: one of several lines is written to the front of `out`.
///
/// The rule is that of [`MessageRef::summary`]. The bytes of `out` behind the summary are kept, and on a refusal all of them;
/// `out` of the title's length is always enough.
///
/// ```
/// use sluicepod::{summary_into, Place, Refusal};
///
/// let title = b"Offload of bus 7,\nsecond run";
/// let mut out = [b'.'; 30];
/// let place = summary_into(title, &mut out)?;
/// assert_eq!(place, Place::Buffer(0..28));
/// assert_eq!(place.bytes(title, &out), b"Offload of bus 7, second run");
/// assert_eq!(&out[28..], b"..");
/// assert_eq!(summary_into(title, &mut out[..27]), Err(Refusal::NoRoom { needed: 28 }));
/// assert_eq!(summary_into(b" one line ", &mut []), Ok(Place::Message(1..9)));
/// # Ok::<(), Refusal>(())
/// ```
///
/// # Errors
///
/// [`Refusal::TooLong`], where the title is longer than [`LIMIT`](crate::LIMIT); [`Refusal::NoRoom`], where `out` is shorter
/// than the summary to be written.
pub fn summary_into(title: &[u8], out: &mut [u8]) -> Result<Place, Refusal> {
    archive::summary(title, out)
}

/// The summary of a whole message, by the rule for a title: what the original has as `CommitRef::message_summary()`.
///
/// It is not always that of the title: with line ends of CR LF the body is read too.
///
/// ```
/// use sluicepod::{message_summary, MessageRef};
///
/// assert_eq!(&message_summary(b"a\nb\n\nc")?[..], b"a b");
/// assert_eq!(&message_summary(b"a\r\n\r\nb")?[..], b"a  b");
/// assert_eq!(&MessageRef::from_bytes(b"a\r\n\r\nb")?.summary()[..], b"a");
/// # Ok::<(), sluicepod::Refusal>(())
/// ```
///
/// # Errors
///
/// [`Refusal::TooLong`], where the message is longer than [`LIMIT`](crate::LIMIT).
#[cfg(feature = "alloc")]
pub fn message_summary(message: &[u8]) -> Result<Cow<'_, [u8]>, Refusal> {
    let (place, out) = with_room(|out| archive::message_summary(message, out), Place::written)?;
    Ok(value(message, place, out))
}

/// The summary of a whole message where there is no heap, as [`message_summary`] gives it: one of several lines is written to
/// the front of `out`.
///
/// The bytes of `out` behind the summary are kept, and on a refusal all of them; `out` of the message's length is always
/// enough.
///
/// # Errors
///
/// [`Refusal::TooLong`], where the message is longer than [`LIMIT`](crate::LIMIT); [`Refusal::NoRoom`], where `out` is shorter
/// than the summary to be written.
pub fn message_summary_into(message: &[u8], out: &mut [u8]) -> Result<Place, Refusal> {
    archive::message_summary(message, out)
}

/// The trailers of a message's body: what the original has as `CommitRef::message_trailers()`.
///
/// A message without a body has none, and one whose body ends in no trailer block. Their [lines](crate::TrailerRef::line)
/// are counted in the message, the title's lines included, so all of the message above them is looked at.
///
/// ```
/// use sluicepod::message_trailers;
///
/// let message = b"Fix it\n\nSigned-off-by: A\nReviewed-by: B\n";
/// let mut authors = message_trailers(message)?.authors();
/// let author = authors.next().unwrap();
/// assert_eq!((&author.value[..], author.line), (&b"A"[..], 3));
/// assert_eq!(authors.next(), None);
/// # Ok::<(), sluicepod::Refusal>(())
/// ```
///
/// # Errors
///
/// [`Refusal::TooLong`], where the message is longer than [`LIMIT`](crate::LIMIT).
#[cfg(feature = "alloc")]
pub fn message_trailers(message: &[u8]) -> Result<Trailers<'_>, Refusal> {
    Ok(Trailers::new(message, Cursor::of_message(message)?))
}
