//! A day's file in a single call, which fills a lent table.

use std::fmt;

use crate::record::Line;
use crate::refusal::Refusal;
use crate::text::Units;
use crate::{ffi, ffi::accepted};

/// The most records that [`read_day`] reads, into however long a table.
pub const DAY_MOST: usize = 256;

/// A slot of the table that [`read_day`] fills with what the listing shows of a record. The default one is not filled.
#[derive(Clone, Copy, PartialEq, Eq, Hash, Default)]
#[repr(C)] // the library fills the caller's own slots
pub struct DaySlot {
    pub(crate) refusal: ffi::Refusal,
    pub(crate) message_class: usize,
    /// In 16-bit units.
    pub(crate) label_length: usize,
    pub(crate) extension_size: usize,
    pub(crate) message_size: usize,
    pub(crate) section_length: usize,
}

impl DaySlot {
    /// What reading the record's section comes to, or `None` where no call has filled the slot. A refusal's place
    /// counts from the section's first byte.
    #[inline]
    pub fn answer(&self) -> Option<Result<Line, Refusal>> {
        // one that is filled has a refusal's number, or the length of a section
        let filled = *self != Self::default();
        filled.then(|| accepted(self.refusal).map(|()| self.line()))
    }

    /// The values of an accepted section, which are no wider than their fields.
    #[inline]
    fn line(&self) -> Line {
        Line {
            message_class: self.message_class as u16,
            label_length: Units(self.label_length as u32),
            extension_size: self.extension_size,
            message_size: self.message_size,
            section_length: self.section_length,
        }
    }
}

impl fmt::Debug for DaySlot {
    fn fmt(&self, f: &mut fmt::Formatter<'_>) -> fmt::Result {
        f.debug_tuple("DaySlot").field(&self.answer()).finish()
    }
}

/// Reads a whole day's file into `table`, its first record into the first slot, and gives the number of its records. A
/// section that is refused is an answer in its slot. Slots behind the last answer stay as they were.
///
/// # Errors
///
/// Whole records are counted up to the end of the file or the first that is wrong or cut. 16 where they are more than
/// the slots or than [`DAY_MOST`]: no slot is filled. Else 15 where a record is wrong or cut: its place is the number
/// of that record, from 0, and the slots before it are filled.
///
/// ```
/// use ugbariteyo::{read_day, DaySlot, Kind, DAY_MOST};
///
/// let mut file = b"WR\0\0\x38\0\0\0".to_vec();
/// file.extend([0; 56]);
/// file.extend(b"WR\0\0\x01\0\0\0?"); // a section of one byte
///
/// let mut table = [DaySlot::default(); DAY_MOST];
/// assert_eq!(read_day(&file, &mut table)?, 2);
/// assert_eq!(table[0].answer().unwrap()?.section_length, 56);
/// assert_eq!(table[1].answer().unwrap().unwrap_err().kind(), Some(Kind::InputShort));
/// assert_eq!(table[2].answer(), None);
///
/// file.extend(b"WR\0"); // a cut head
/// let refusal = read_day(&file, &mut table).unwrap_err();
/// assert_eq!((refusal.kind(), refusal.place), (Some(Kind::BadRecord), 2));
/// # Ok::<(), ugbariteyo::Refusal>(())
/// ```
#[inline]
pub fn read_day(file: &[u8], table: &mut [DaySlot]) -> Result<usize, Refusal> {
    let day = ffi::read_day(file, table);
    accepted(day.refusal).map(|()| day.records)
}
