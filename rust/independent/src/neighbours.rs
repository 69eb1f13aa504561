//! Neighbouring steps that one input breaks together. Only there an exchange of the two shows, and
//! only where no step before them fails.

use crate::listing::RECORD;
use crate::order::{both_fail, neighbours};
use crate::queue::{self, Given};
use crate::request::{FilledIn, Request, SENDING};
use crate::steps::{ENDLESS, READING, VALUE, WRITING};
use crate::value::{Body, BODY};
use crate::{read, write, SectionValues};

pub use crate::order::Neighbours;

/// The paper's lists of steps.
#[derive(Debug, Clone, Copy, PartialEq, Eq)]
pub enum List {
    /// S1 to S11 and P1 to P7; then 13, of the support copy.
    Reading,
    /// The section writer's.
    Writing,
    /// A queue format's that is read.
    ImageRead,
    /// A queue format's that is written.
    ImageWritten,
    /// A request's.
    Sending,
    /// A record's of a day file, before its section is read.
    Record,
    /// S1 to S11 and P1 to P7; then 62, 60 and 61, of the number that the body is.
    Value,
    /// 60 and 61, of a body that comes without its section.
    Body,
}

/// The neighbours that no input breaks together.
const APART: [(List, [&str; 2]); 5] = [
    // Without 16 bytes no Flags are read.
    (List::Reading, ["S1", "S2"]),
    (List::Value, ["S1", "S2"]),
    // Without 56 bytes no LabelLength is read.
    (List::Reading, ["P1", "P2"]),
    (List::Value, ["P1", "P2"]),
    // Without 4 bytes no type is read.
    (List::ImageRead, ["1", "30"]),
];

impl List {
    /// The neighbours that an input can break together.
    pub fn neighbours(self) -> Vec<Neighbours> {
        let mut all = match self {
            Self::Reading => neighbours(&READING),
            Self::Writing => neighbours(&WRITING),
            Self::ImageRead => neighbours(&queue::READING),
            Self::ImageWritten => neighbours(&queue::WRITING),
            Self::Sending => neighbours(&SENDING),
            Self::Record => neighbours(&RECORD),
            Self::Value => neighbours(&VALUE),
            Self::Body => neighbours(&BODY),
        };
        all.retain(|pair| !APART.contains(&(self, pair.names)));
        all
    }
}

/// The first step that fails when `input` is read and copied to so many lent bytes, and the next
/// one, where that fails too.
pub fn reading(input: &[u8], security_first: bool, output: usize) -> Option<Neighbours> {
    both_fail(&READING, &read::headers(input, security_first, output))
}

/// The same for a section to be written.
pub fn writing(values: &SectionValues<'_>, output: usize) -> Option<Neighbours> {
    both_fail(&WRITING, &write::headers(values, output))
}

/// The same for a queue format to be read.
pub fn image_read(input: &[u8]) -> Option<Neighbours> {
    both_fail(&queue::READING, &Given::in_input(input))
}

/// The same for a queue format to be written.
pub fn image_written(format: [u8; 2], fixed: &[u8], text: &[u8], output: usize) -> Option<Neighbours> {
    both_fail(&queue::WRITING, &Given::new(format, fixed, text, output))
}

/// The same for a request.
pub fn sending(request: &Request<'_>, output: usize) -> Option<Neighbours> {
    both_fail(&SENDING, &FilledIn::new(request, output))
}

/// The same for what is left of a day file.
pub fn record(rest: &[u8]) -> Option<Neighbours> {
    both_fail(&RECORD, rest)
}

/// The same for the number that a section's body is.
pub fn value(input: &[u8], security_first: bool) -> Option<Neighbours> {
    both_fail(&VALUE, &read::headers(input, security_first, ENDLESS))
}

/// The same for a body that comes without its section.
pub fn body(body_type: u32, body: &[u8]) -> Option<Neighbours> {
    both_fail(&BODY, &Body::new(body_type, body))
}
