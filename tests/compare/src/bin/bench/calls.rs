//! The calls that are timed, and what of a shape each is asked.

use std::hint::black_box;

use compare::answers::{Cursor, Part};
use original::commit::message::BodyRef;

use crate::{
    race::{race, Race},
    shapes::Shape,
    sides::{ours, theirs},
};

/// A call that was timed on a shape.
pub struct Row {
    pub call: &'static str,
    pub race: Race,
}

pub fn row(call: &'static str, theirs: impl FnMut() -> u64, ours: impl FnMut() -> u64) -> Row {
    let race = race(theirs, ours).unwrap_or_else(|| panic!("{call}: the two answer differently"));
    Row { call, race }
}

/// The names of the calls of a message, in order, and of a body.
pub const MESSAGE_CALLS: &[&str] = &[
    "title and body",
    "summary of the title",
    "summary of the message",
    "trailers of the message",
    #[cfg(feature = "libgit2")]
    "trailers of the message, libgit2",
];
pub const BODY_CALLS: &[&str] = &[
    "block start",
    "trailer walk",
    "sign-off walk",
    "block walk",
    "find the last name",
    "find no name",
    "attribution of each token",
];

/// Below a title that is the same for all, only what reads on is timed.
pub fn of_message(shape: &Shape) -> Vec<Row> {
    let message = &shape.message[..];
    let out = &mut vec![0; message.len()][..];
    let (title_end, _) = compare::original::title_and_body(message);
    let title = &message[..title_end];
    let mut rows = Vec::new();
    if shape.body.is_some() {
        rows.push(row(
            "title and body",
            || theirs::title_and_body(black_box(message)),
            || ours::title_and_body(black_box(message)),
        ));
        rows.push(row(
            "summary of the title",
            || theirs::summary(black_box(title)),
            || ours::summary(black_box(title), out),
        ));
    }
    rows.push(row(
        "summary of the message",
        || theirs::message_summary(black_box(message)),
        || ours::message_summary(black_box(message), out),
    ));
    rows.push(row(
        "trailers of the message",
        || theirs::message_trailers(black_box(message)),
        || ours::message_trailers(black_box(message), out),
    ));
    #[cfg(feature = "libgit2")]
    rows.extend(beside_libgit2(message, out));
    rows
}

/// libgit2 in the original's place, where it finds as many trailers.
#[cfg(feature = "libgit2")]
fn beside_libgit2(message: &[u8], out: &mut [u8]) -> Option<Row> {
    let text = std::ffi::CString::new(message).ok()?;
    let race = race(
        || crate::libgit2::message_trailers(black_box(&text)),
        || ours::message_trailers_counted(black_box(message), out),
    )?;
    Some(Row {
        call: "trailers of the message, libgit2",
        race,
    })
}

pub fn of_body(shape: &Shape) -> Vec<Row> {
    let Some(body) = shape.body.as_deref() else {
        return Vec::new();
    };
    let mut rows = vec![row(
        "block start",
        || theirs::block_start(black_box(body)),
        || ours::block_start(black_box(body)),
    )];
    rows.extend(walks(body));
    rows.extend(questions(body));
    rows
}

/// The walks from the block's start on, which is not looked for anew, and neither is the number of its line.
fn walks(body: &[u8]) -> [Row; 3] {
    let out = &mut vec![0; body.len()][..];
    let parsed = BodyRef::from_bytes(body);
    let start = parsed.without_trailer().len();
    let cursor = Cursor::of(body, start);
    [
        row(
            "trailer walk",
            || theirs::walk(black_box(parsed).trailers()),
            || ours::walk(black_box(body), cursor, out),
        ),
        row(
            "sign-off walk",
            || theirs::walk_signed_off_by(black_box(parsed).trailers()),
            || ours::walk_signed_off_by(black_box(body), cursor, out),
        ),
        row(
            "block walk",
            || theirs::blocks(black_box(parsed)),
            || ours::blocks(black_box(body), start),
        ),
    ]
}

/// The lookup of the last token, or of one that is not there, in a body; and what each of its tokens is.
fn questions(body: &[u8]) -> Vec<Row> {
    let out = &mut vec![0; body.len()][..];
    let trailers: Vec<_> = BodyRef::from_bytes(body).trailers().collect();
    let tokens: Vec<Part> = compare::original::trailers(body)
        .iter()
        .map(|trailer| trailer.token)
        .collect();
    let absent = &b"Offload-state"[..];
    let last = tokens.last().map_or(absent, |token| token.of(body));
    let mut rows = vec![
        row(
            "find the last name",
            || theirs::find(black_box(body), black_box(last)),
            || ours::find(black_box(body), black_box(last), out),
        ),
        row(
            "find no name",
            || theirs::find(black_box(body), black_box(absent)),
            || ours::find(black_box(body), black_box(absent), out),
        ),
    ];
    if !tokens.is_empty() {
        rows.push(row(
            "attribution of each token",
            || theirs::attributions(black_box(&trailers)),
            || ours::attributions(black_box(body), black_box(&tokens)),
        ));
    }
    rows
}
