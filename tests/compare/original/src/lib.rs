//! The three files of gix-object 0.64.1's src/commit/message, compiled as they are. Around them stands only what they
//! ask of their crate: `bstr`, a commit's message, and a message's title and body.

pub use bstr;

use bstr::BStr;
use commit::message::body::Trailers;

pub struct CommitRef<'a> {
    pub message: &'a BStr,
}

pub mod commit {
    use crate::bstr::BStr;

    pub struct MessageRef<'a> {
        pub title: &'a BStr,
        pub body: Option<&'a BStr>,
    }

    // One line, `pub mod message;`, with the path that build.rs found.
    include!(concat!(env!("OUT_DIR"), "/message.rs"));
}

/// The walk of `bytes` from their front on. The field is the crate's own, so only this crate can set it.
pub fn walk(bytes: &[u8]) -> Trailers<'_> {
    Trailers { cursor: bytes }
}

/// What the original's line rule leaves of a line, its `Line::text`. The rule is private to body.rs and no public answer
/// shows all that it drops, so build.rs copies its text from there.
pub fn line_text(line: &[u8]) -> &[u8] {
    trim_line_ending(line)
}

include!(concat!(env!("OUT_DIR"), "/line.rs"));

/// What a walk has not read yet.
pub fn rest<'a>(walk: &Trailers<'a>) -> &'a [u8] {
    walk.cursor
}
