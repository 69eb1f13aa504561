//! An independent reader and writer of message sections, queue formats and send requests.
//!
//! Written from the paper alone, to be held against the proved library: a second count of the same
//! wires. The plain functions follow the paper's steps in their order; nothing on the paths of
//! reading, copying, writing, sending or listing allocates for a section, and what is read is
//! borrowed from the input.
//!
//! - [`read`], [`support_copy`], [`same_summary`], [`label_shown`]: sections read and copied;
//!   [`is_support_copy`]: whether a copy is right that someone else made.
//! - [`portions`]: a section that comes a few bytes at a time.
//! - [`mod@write`]: sections written from values and parts.
//! - [`value`]: bodies of a single number, read and written.
//! - [`queue`]: queue format images, [`request`]: send requests, [`properties`]: those of a request or of
//!   a section, [`listing`]: day files, [`copies`]: their copies, [`day`]: one read in a single call.
//! - [`field`]: the field or part that a place lies in; [`may_differ`]: the bits that a refusal does not
//!   depend on; [`copy_by_sizes`]: what a refused section's copy would be.
//! - [`generate`]: cases made at random for a comparison; [`neighbours`]: what steps a case breaks
//!   together; [`cause`]: which one refuses it; [`planted`]: wrong versions that a comparison has to find.

#![forbid(unsafe_code)]
#![warn(missing_docs)]

mod bytes;
pub mod cause;
pub mod copies;
mod copy;
pub mod day;
mod differ;
pub mod field;
pub mod generate;
pub mod listing;
mod lists;
pub mod neighbours;
mod order;
pub mod planted;
pub mod portions;
pub mod properties;
mod proposed;
pub mod queue;
mod read;
mod refusal;
pub mod request;
mod section;
mod steps;
pub mod value;
pub mod write;

pub use copy::{copy_by_sizes, label_shown, same_summary, support_copy};
pub use differ::may_differ;
pub use proposed::is_support_copy;
pub use read::read;
pub use refusal::{number, Refusal};
pub use section::{
    Part, Parts, Properties, Section, Security, SecurityFlags, Summary, LABEL_MOST, LIMIT, PROPERTIES_FIXED,
    SECURITY_FIXED,
};
pub use write::{write_section, SectionValues};
