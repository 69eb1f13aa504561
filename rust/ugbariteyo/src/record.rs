//! The records of a day's file: each a head of 8 bytes and a section.

use std::error::Error;
use std::fmt;
use std::iter::FusedIterator;

use crate::part::found;
use crate::refusal::Refusal;
use crate::section::First;
use crate::text::Units;
use crate::{ffi, ffi::accepted};

/// A record of a day's file. Its `Debug` shows no private part.
#[derive(Clone, Copy, PartialEq, Eq, Hash)]
#[non_exhaustive]
pub struct Record<'a> {
    /// How many bytes it has, its head included.
    pub size: usize,
    /// Which header stands first in its section.
    pub first: First,
    /// The bytes of its section. What was read of them may be less.
    pub section: &'a [u8],
    /// What reading the section comes to. A refusal's place counts from the section's first byte.
    pub answer: Result<Line, Refusal>,
}

impl fmt::Debug for Record<'_> {
    fn fmt(&self, f: &mut fmt::Formatter<'_>) -> fmt::Result {
        f.debug_struct("Record")
            .field("size", &self.size)
            .field("first", &self.first)
            .field("answer", &self.answer)
            .finish_non_exhaustive()
    }
}

/// What the listing shows of an accepted section.
#[derive(Debug, Clone, Copy, PartialEq, Eq, Hash)]
#[non_exhaustive]
pub struct Line {
    /// MessageClass.
    pub message_class: u16,
    /// LabelLength, null included.
    pub label_length: Units,
    /// ExtensionSize, in bytes.
    pub extension_size: usize,
    /// MessageSize, in bytes.
    pub message_size: usize,
    /// The section's length, padding included.
    pub section_length: usize,
}

/// What stands at the first byte of the rest of a day's file.
#[derive(Debug, Clone, Copy, PartialEq, Eq, Hash)]
pub enum Next<'a> {
    /// Nothing: the file ends behind a whole record.
    End,
    /// A wrong or cut head, or a cut section: no record can be found from here on.
    Stop,
    /// A record.
    Found(Record<'a>),
}

impl<'a> Next<'a> {
    #[inline]
    fn new(record: &ffi::Record, rest: &'a [u8]) -> Self {
        match record.next {
            ffi::Record::END => Self::End,
            ffi::Record::FOUND => Self::Found(Record {
                size: record.size,
                first: record.security_first,
                section: found(record.section, rest),
                answer: accepted(record.refusal).map(|()| Line {
                    message_class: record.message_class,
                    label_length: Units(record.label_length),
                    extension_size: record.extension_size,
                    message_size: record.message_size,
                    section_length: record.section_length,
                }),
            }),
            _ => Self::Stop,
        }
    }
}

/// The record at the first byte of `rest`, which is what is left of a day's file. 32,776 bytes of it are enough to
/// tell, so a file can be read in pieces; [`records`] goes through one that is there as a whole.
#[inline]
pub fn next_record(rest: &[u8]) -> Next<'_> {
    Next::new(&ffi::next_record(rest), rest)
}

/// The records of a day's file, in turn. The last item is a [`Stop`] where the file does not end behind a whole
/// record.
///
/// ```
/// let mut file = b"WR\0\0\x38\0\0\0".to_vec();
/// file.extend([0; 56]);
/// file.extend(b"WR\0"); // a cut head
///
/// let mut records = ugbariteyo::records(&file);
/// let record = records.next().unwrap()?;
/// assert_eq!(record.section, [0; 56]);
/// assert_eq!(record.answer?.section_length, 56);
/// let stop = records.next().unwrap().unwrap_err();
/// assert_eq!((stop.number, stop.place), (1, 64));
/// assert_eq!(records.next(), None);
/// # Ok::<(), Box<dyn std::error::Error>>(())
/// ```
pub fn records(file: &[u8]) -> Records<'_> {
    Records { rest: file, number: 0, place: 0 }
}

/// The records of a day's file: see [`records`].
#[derive(Clone)]
pub struct Records<'a> {
    rest: &'a [u8],
    number: usize,
    place: usize,
}

impl<'a> Iterator for Records<'a> {
    type Item = Result<Record<'a>, Stop>;

    fn next(&mut self) -> Option<Self::Item> {
        match next_record(self.rest) {
            Next::End => None,
            Next::Found(record) => {
                self.number += 1;
                self.place += record.size;
                self.rest = self.rest.get(record.size..).unwrap_or_default();
                Some(Ok(record))
            }
            Next::Stop => {
                self.rest = &[];
                Some(Err(Stop { number: self.number, place: self.place }))
            }
        }
    }
}

impl FusedIterator for Records<'_> {}

impl fmt::Debug for Records<'_> {
    fn fmt(&self, f: &mut fmt::Formatter<'_>) -> fmt::Result {
        f.debug_struct("Records")
            .field("number", &self.number)
            .field("place", &self.place)
            .finish_non_exhaustive()
    }
}

/// A record that is wrong or cut: nothing behind it was read.
#[derive(Debug, Clone, Copy, PartialEq, Eq, Hash)]
pub struct Stop {
    /// The record's number; the first has 0.
    pub number: usize,
    /// The offset of its first byte in the file.
    pub place: usize,
}

impl fmt::Display for Stop {
    fn fmt(&self, f: &mut fmt::Formatter<'_>) -> fmt::Result {
        write!(f, "stopped at record {}, byte {}: wrong or cut head, or cut section", self.number, self.place)
    }
}

impl Error for Stop {}
