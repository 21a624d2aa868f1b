//! The original, unchanged, beside Git and beside the port.
//!
//! `answers` says what is compared, `original` asks the original for it. `ours` asks the port for the same through
//! `archive`, the calls that write by way of `buffers`, those that list by way of `listing`. `inputs` has the inputs, and
//!
//! ```text
//! let plan = Plan { seed: 1, deeper: 0, messages: 100_000, long: true };
//! let outcome = search::compare(&plan, original::answer, ours::answer);
//! ```
//!
//! ends at the first input on which the two disagree and makes it small; `answers::difference` names the field. `readings` does
//! the same for the second reading, whose cut `divider` reads by itself.

#[cfg(feature = "archive")]
pub mod additions;
pub mod answers;
#[cfg(feature = "archive")]
pub mod archive;
pub mod buffers;
#[cfg(feature = "archive")]
pub mod commits;
pub mod divider;
pub mod git;
pub mod inputs;
#[cfg(feature = "archive")]
pub mod listing;
pub mod original;
#[cfg(feature = "archive")]
pub mod ours;
#[cfg(feature = "archive")]
pub mod readings;
pub mod rng;
pub mod search;
