//! A day's file read in a single call (C-15): "up to 256 sections lying one behind the other, each with its
//! record head as in the listing program's file".

use crate::listing::{answer, whole_by, Answer, Whole, RECORD};
use crate::{number, Refusal};

/// The most records that one call reads.
pub const DAY_MOST: usize = 256;

/// Reads the records of `file` and fills `table` from its first slot on, "each answer the values of its
/// listing line. The result is the number of records. The answers equal reading each alone, places counted
/// from that section's start. Slots behind the last record stay as they were. Refusals: 16 more records than
/// slots or than 256 (first, by counting whole records up to the first bad or cut one; nothing filled), 15
/// bad or cut record (its place is the record's number); the answers before it stay filled".
pub fn read_day(file: &[u8], table: &mut [Answer]) -> Result<usize, Refusal> {
    let most = table.len().min(DAY_MOST);
    let count = Records { rest: file }.take(most + 1).count();
    if count > most {
        return Err(Refusal::at_start(number::TOO_MANY_RECORDS));
    }
    let mut records = Records { rest: file };
    for (slot, record) in table.iter_mut().zip(&mut records) {
        *slot = answer(record.section, record.security_first);
    }
    match records.rest {
        [] => Ok(count),
        _ => Err(Refusal { number: number::BAD_RECORD, place: count }),
    }
}

/// The whole records of a day file, up to its end or to one that is bad or cut.
struct Records<'a> {
    /// What stands behind the last one that was given.
    rest: &'a [u8],
}

impl<'a> Iterator for Records<'a> {
    type Item = Whole<'a>;

    #[inline]
    fn next(&mut self) -> Option<Whole<'a>> {
        let record = whole_by(&RECORD, self.rest).ok()?;
        self.rest = record.behind;
        Some(record)
    }
}
