//! The trailers, blocks, title and summary of a commit message, read by proved code.
//!
//! The reading is done by Sluicepod's archive, `libexports.a`: a port of the module `src/commit/message` of gix-object
//! 0.64.1 to a language in which every function is proved. This crate gives its calls the original's names, so that
//! code for the original moves by changing an import and handling a refusal:
//!
//! - The calls that are given bytes answer with a [`Result`]: they refuse input longer than [`LIMIT`].
//! - Bytes are `[u8]`, not `BStr`: the crate has no dependencies.
//! - `CommitRef::message_summary()` and `CommitRef::message_trailers()` are functions that take the commit's message.
//! - [`BodyRef::find`] and [`BodyRef::trailer_start`] are added; so are how lines end ([`BodyRef::ending`] and the field
//!   [`TrailerRef::ending`]), the number of a trailer's line ([`TrailerRef::line`]), [`CommitObject`], [`mailbox`], which
//!   tells who signed, bundles: [`write_bundle`], [`Bundle`], and [`add_trailer`], which writes the message with one
//!   trailer more.
//! - [`above_divider`] cuts a message above a patch, for any other call: the second [`Reading`].
//! - [`may_erase`] says whether a bus's data may be erased, and [`closing_note`] what the entry says of it.
//!
//! A value that is a part of the input is borrowed, and one that had to be written is owned. No input makes a call panic.
//!
//! ```
//! use sluicepod::MessageRef;
//!
//! let message = b"Offload of bus 7\n\nAll well.\n\nVehicle: 7\nRecords: 318,\n 22 late\nOffload-state: complete\n";
//! let body = MessageRef::from_bytes(message)?.body().unwrap();
//! assert_eq!(body.trailers().count(), 3);
//! assert_eq!(&body.find(b"Records").unwrap().value[..], b"318, 22 late");
//! # Ok::<(), sluicepod::Refusal>(())
//! ```
//!
//! # Without a heap
//!
//! The crate is `no_std`. The feature `alloc`, which is on by default, adds the calls that make room for what they write:
//! [`Trailers`] and [`TrailerRef`], [`BodyRef::find`], the summaries, [`add_trailer`], and the writing of bundles. Without it,
//! what is written goes to a buffer that the caller lends, and a trailer is told by a [`Record`] of places: [`list_trailers`]
//! and [`list_from`], which give all of them at once, [`list_foot`], which reads no more than the foot of a body,
//! [`next_trailer`], [`find_trailer`], [`summary_into`], [`message_summary_into`], [`add_trailer_into`]. All other calls need
//! neither.
//!
//! ```
//! use sluicepod::{list_trailers, Reading, Record};
//!
//! let message = b"Offload of bus 7\n\nVehicle: 7\nRecords: 318,\n 22 late\nOffload-state: complete\n";
//! let (mut table, mut out) = ([Record::EMPTY; 16], [0; 256]);
//! let listed = list_trailers(message, Reading::Whole, &mut table, &mut out)?;
//! let values = table[..listed.records].iter().map(|record| record.value_bytes(message, &out));
//! assert!(values.eq([&b"7"[..], b"318, 22 late", b"complete"]));
//! # Ok::<(), sluicepod::Refusal>(())
//! ```
#![no_std]
#![deny(missing_docs, unsafe_code)]

#[cfg(feature = "alloc")]
extern crate alloc;

mod addition;
#[allow(unsafe_code)]
mod archive;
mod body;
mod bundle;
mod closing;
mod commit;
mod ending;
mod foot;
mod listing;
mod mailbox;
mod message;
mod reading;
mod record;
mod refusal;
mod step;
#[cfg(feature = "alloc")]
mod trailers;
#[cfg(feature = "alloc")]
mod value;

pub use addition::add_trailer_into;
pub use body::{BodyRef, MessageBlock, MessageBlocks};
pub use bundle::{Bundle, Report};
pub use closing::{closing_note, may_erase, ClosingNote, Field};
pub use commit::{CommitObject, HeaderLine};
pub use ending::Ending;
pub use foot::{list_foot, Foot};
pub use listing::{list_from, list_trailers, Listed};
pub use mailbox::{mailbox, Mailbox};
pub use message::{message_summary_into, summary_into, MessageRef};
pub use reading::{above_divider, message_end, Reading};
pub use record::{Place, Record};
pub use refusal::Refusal;
pub use step::{find_trailer, next_trailer, Cursor, Step};
#[cfg(feature = "alloc")]
pub use {
    addition::add_trailer,
    bundle::{write_bundle, write_bundle_into},
    message::{message_summary, message_trailers},
    trailers::{TrailerRef, Trailers},
};

/// The longest message or body that is read, in bytes; a longer one is refused.
pub const LIMIT: usize = 1_048_576;
