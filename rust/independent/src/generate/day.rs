//! Day files for the listing program, and for a table that is filled in a single call (C-15).

use super::{case, Case, Draft, Random};
use crate::day::DAY_MOST;
use crate::listing::{HEAD, RECORD_MOST, SECTION_MOST};

/// The records of a long day file behind its rows: their lines take more than 200 KB.
const LONG: usize = 12_000;
/// The rows at its start, and the length of the short record in each.
const ROWS: usize = 20;
const SHORT: usize = 56;
/// The bytes of a program's buffer.
const BUFFER: usize = 65_536;
/// The records of a short day file.
const FEW: [usize; 7] = [0, 1, 1, 2, 3, 4, 6];
/// One file for a table in so many has about [`DAY_MOST`] records.
const MANY: usize = 8;
/// Numbers of slots that do not depend on the file: the fewest, and some next to [`DAY_MOST`].
const SLOTS: [usize; 6] = [0, 1, DAY_MOST - 1, DAY_MOST, DAY_MOST + 1, 300];

/// A day file of a few records, a longest one now and then among them. It ends as it should, or in
/// a head or a section that is cut, or in a head with one test or two neighbouring ones broken.
pub fn day(r: &mut Random) -> Vec<u8> {
    let mut file = Vec::new();
    for _ in 0..r.pick(&FEW) {
        push_any(r, &mut file);
    }
    push_end(r, &mut file);
    file
}

/// A long day file, several of a program's 64 KB buffers in and out: largest records next to the
/// buffers' ends, then many others, then a short day file.
pub fn long_day(r: &mut Random) -> Vec<u8> {
    let mut file = Vec::new();
    push_rows(r, &mut file);
    for _ in 0..LONG {
        push(&mut file, &any(r));
    }
    file.extend_from_slice(&day(r));
    file
}

/// A day file, and how many slots to lend for its records.
#[derive(Debug, Clone)]
pub struct DayTable {
    /// The file.
    pub file: Vec<u8>,
    /// The slots.
    pub slots: usize,
}

/// A day file of a few records, or now and then of about [`DAY_MOST`]; with a slot for each of them, one
/// more, one less, or another number of slots. Every other file may end as one of [`day`] does; now and
/// then a bad record stands among the others.
pub fn day_table(r: &mut Random) -> DayTable {
    let mut file = Vec::new();
    let many = r.once_in(MANY);
    let records = if many { DAY_MOST - 1 + r.below(4) } else { r.pick(&FEW) };
    let bad = if r.once_in(6) { r.below(records + 1) } else { records };
    for number in 0..records {
        if number == bad {
            let test = r.below(4);
            push_wrong(r, &mut file, &[test]);
        }
        match r.below(20) {
            0 => push(&mut file, &Case { bytes: vec![], security_first: r.once_in(2) }),
            _ if many => push(&mut file, &any(r)),
            _ => push_any(r, &mut file),
        }
    }
    if r.once_in(2) {
        push_end(r, &mut file);
    }
    let slots = match r.below(8) {
        0 | 1 => r.pick(&SLOTS),
        2 | 3 => records.saturating_sub(1),
        4 => records + 1,
        5 => records + r.below(8),
        _ => records,
    };
    DayTable { file, slots }
}

/// Adds rows of a long record, a largest one and a short one to a file that begins with them. The
/// largest one's end is next to that of a buffer of 64 KB which is filled up whenever it holds less
/// than a largest record: so it is at the start of the file, and behind every largest record.
fn push_rows(r: &mut Random, file: &mut Vec<u8>) {
    let mut held = BUFFER;
    for _ in 0..ROWS {
        let long = held - HEAD - RECORD_MOST;
        for length in [long - 9 + r.below(19), SECTION_MOST, SHORT] {
            push(file, &filled(r, length));
        }
        held = BUFFER - HEAD - SHORT;
    }
}

/// Any input that a record can hold.
fn any(r: &mut Random) -> Case {
    let mut record = case(r);
    record.bytes.truncate(SECTION_MOST);
    record
}

/// An input of exactly `length` bytes: most often a section that leaves no more than three of them.
fn filled(r: &mut Random, length: usize) -> Case {
    let mut draft = Draft::valid(r);
    draft.body += (length.saturating_sub(draft.length()) & !3) as u32;
    draft.allocation = draft.allocation.max(draft.body);
    let mut bytes = if r.once_in(4) { vec![] } else { draft.lay_out(r) };
    bytes.resize(length, 0xAA);
    Case { bytes, security_first: draft.security_first }
}

/// Ends a file: most often in a head or a section that is cut, or in a wrong head.
fn push_end(r: &mut Random, file: &mut Vec<u8>) {
    let test = r.below(4);
    match r.below(20) {
        0 => file.truncate(r.below(file.len() + 1)),
        1 | 2 => {
            push_any(r, file);
            file.truncate(file.len() - 1 - r.below(HEAD));
        }
        3..=5 => push_cut_head(r, file),
        6 | 7 => push_wrong(r, file, &[test]),
        8..=13 => push_wrong(r, file, &[test, test + 1]),
        14 | 15 => push(file, &filled(r, SECTION_MOST + 1)),
        _ => {}
    }
}

/// Adds a record: any, or now and then one of the longest.
fn push_any(r: &mut Random, file: &mut Vec<u8>) {
    let longest = SECTION_MOST - r.below(2);
    let record = if r.once_in(20) { filled(r, longest) } else { any(r) };
    push(file, &record);
}

/// Adds a record whose head breaks `tests`: 0 the mark, 1 the security byte, 2 the zero byte, 3 the
/// length, 4 that the section is there, which a length too long breaks too. Further records stand
/// behind it now and then.
fn push_wrong(r: &mut Random, file: &mut Vec<u8>, tests: &[usize]) {
    let at = file.len();
    push(file, &any(r));
    let head = &mut file[at..at + HEAD];
    for test in tests {
        match test {
            0 if r.once_in(4) => head.swap(0, 1),
            0 => head[r.below(2)] ^= 1 << r.below(8),
            1 => head[2] = r.pick(&[2, 3, 0x80, 0xFF]),
            2 => head[3] = r.pick(&[1, 0x80, 0xFF]),
            3 => head[4..].copy_from_slice(&r.pick(&[32_769, 65_536, 0x8000_0000, u32::MAX]).to_le_bytes()),
            _ => {}
        }
    }
    for _ in 0..r.below(3) {
        push_any(r, file);
    }
}

/// Adds some of the bytes of a head, most often with a wrong mark.
fn push_cut_head(r: &mut Random, file: &mut Vec<u8>) {
    let mut head = head(&any(r));
    if !r.once_in(4) {
        head[r.below(2)] ^= 1 << r.below(8);
    }
    file.extend_from_slice(&head[..1 + r.below(HEAD - 1)]);
}

/// Adds a record.
fn push(file: &mut Vec<u8>, record: &Case) {
    file.extend_from_slice(&head(record));
    file.extend_from_slice(&record.bytes);
}

/// A record's head.
fn head(record: &Case) -> [u8; HEAD] {
    let [a, b, c, d] = (record.bytes.len() as u32).to_le_bytes();
    [0x57, 0x52, u8::from(record.security_first), 0, a, b, c, d]
}
