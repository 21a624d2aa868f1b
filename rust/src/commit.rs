use crate::{archive, Refusal};

/// A commit object's content, as `git cat-file commit` prints it: a header with a good form, and a message.
///
/// The header has lines of a name, a space and a content: first `tree`, then any number of `parent`, then `author` and
/// `committer`, then lines of any other names. A line that starts with a space continues the other line above it. An
/// empty line ends the header; behind it is the message. Identifiers are all 40 or all 64 lower-case hex digits.
///
/// ```
/// use sluicepod::{message_trailers, CommitObject};
///
/// let content = b"tree 4b825dc642cb6eb9a060e54bf8d69288fbee4904\n\
///     author A. Driver <a@depot.example> 1700000000 +0100\n\
///     committer A. Driver <a@depot.example> 1700000000 +0100\n\
///     gpgsig -----BEGIN PGP SIGNATURE-----\n \n iQ\n -----END PGP SIGNATURE-----\n\
///     \n\
///     Offload of bus 7\n\nx\n\nVehicle: 7\n";
/// let commit = CommitObject::from_bytes(content)?;
/// assert_eq!(commit.line(0).unwrap().name, b"tree");
/// let signature = commit.line(3).unwrap();
/// assert_eq!(signature.name, b"gpgsig");
/// assert!(signature.content.starts_with(b"-----BEGIN PGP SIGNATURE-----\n \n iQ\n"));
/// assert_eq!(commit.line(4), None);
/// assert_eq!(message_trailers(commit.message())?.count(), 1);
/// # Ok::<(), sluicepod::Refusal>(())
/// ```
#[derive(PartialEq, Eq, Debug, Hash, Ord, PartialOrd, Clone, Copy)]
pub struct CommitObject<'a> {
    content: &'a [u8],
    message: &'a [u8],
}

/// A line of a commit object's header.
#[derive(PartialEq, Eq, Debug, Hash, Ord, PartialOrd, Clone, Copy)]
pub struct HeaderLine<'a> {
    /// What stands before the first space.
    pub name: &'a [u8],
    /// What stands behind that space, without the LF at its end. Continued content is as it stands: the LF and the
    /// space before each line that continues it are in it.
    pub content: &'a [u8],
}

impl<'a> CommitObject<'a> {
    /// Judges the header, all of it, and finds the message.
    ///
    /// # Errors
    ///
    /// [`Refusal::TooLong`], where the content is longer than [`LIMIT`](crate::LIMIT); [`Refusal::BadHeader`], with the
    /// number of the first line after which no good header is possible.
    pub fn from_bytes(content: &'a [u8]) -> Result<Self, Refusal> {
        let message = archive::commit_message(content)?;
        Ok(CommitObject {
            content,
            message: &content[message],
        })
    }

    /// The header's line of a number, counted from 0; none past the last. A line with those that continue it is one.
    ///
    /// Every call reads the header from its front.
    pub fn line(&self, number: usize) -> Option<HeaderLine<'a>> {
        let (name, content) = archive::header_line(self.content, number).ok()??;
        Some(HeaderLine {
            name: &self.content[name],
            content: &self.content[content],
        })
    }

    /// The message: all that is behind the header's empty line.
    pub fn message(&self) -> &'a [u8] {
        self.message
    }
}
