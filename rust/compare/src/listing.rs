//! Day files listed by both sides, and their records.

use std::io;

use independent::generate::{day, long_day, Random};
use independent::listing::{self, ended_by, next_record, section_length, HEAD, RECORD_MOST, SECTION_MOST};
use independent::neighbours::{self, List};

use crate::report::{agree, hex, Check, Tally, OFTEN};
use crate::side::{Next, Sides, Source};

/// The short day files to each long one.
const SHORT: usize = 600;
/// The bytes of the listing program's buffers.
const BUFFER: usize = 65_536;
/// What counts as several buffers.
const SEVERAL: usize = 200_000;

/// What the files are to meet.
const LARGEST: &str = "length 32768";
const LARGEST_ACCEPTED: &str = "section of 32768";
const LARGEST_AT_END: &str = "length 32768 next to a buffer's end";
const HEAD_AT_END: &str = "head cut by a buffer's end";
const TOO_LONG: &str = "length 32769";
const WRONG_HEAD: &str = "wrong head after records";
const CUT_HEAD: &str = "cut head after records";
const CUT_SECTION: &str = "cut section after records";
const LONG: &str = "over 200 KB in and out";
/// How often they are to meet a file that is long in and out, and a head that a buffer's end cuts.
const LONG_LEAST: u64 = 5;
const HEAD_LEAST: u64 = 20;

/// Compares the listings of generated day files that hold `records` records or more: long ones, and short ones that end
/// in a head or a section that is wrong or cut.
pub fn run(sides: Sides<'_>, records: u64, r: &mut Random) -> io::Result<Tally> {
    let mut tally = Tally::with_neighbours("records listed", List::Record);
    let lengths = [LARGEST, LARGEST_ACCEPTED, LARGEST_AT_END, TOO_LONG];
    for what in lengths.into_iter().chain([WRONG_HEAD, CUT_HEAD, CUT_SECTION]) {
        tally.is_to_meet(what, OFTEN);
    }
    tally.is_to_meet(LONG, LONG_LEAST);
    tally.is_to_meet(HEAD_AT_END, HEAD_LEAST);
    add(&mut tally, sides, &[], Source::Pipe)?;
    while tally.cases() < records {
        let long = long_day(r);
        add(&mut tally, sides, &long, Source::File)?;
        add(&mut tally, sides, &long, Source::Pipe)?;
        for _ in 0..SHORT {
            add(&mut tally, sides, &day(r), Source::Pipe)?;
        }
    }
    Ok(tally)
}

/// Lists one file with both sides and counts its records.
fn add(tally: &mut Tally, sides: Sides<'_>, file: &[u8], source: Source) -> io::Result<()> {
    let (one, other) = (sides.one.list(file, source)?, sides.other.list(file, source)?);
    tally.meet_if(file.len() > SEVERAL && one.len() > SEVERAL, LONG);
    survey(tally, file);
    let (one, other) = (String::from_utf8_lossy(&one), String::from_utf8_lossy(&other));
    let check = compare(&one, &other).and_then(|()| compare_records(sides, file));
    tally.check(check, || hex(file));
    Ok(())
}

/// Compares the records of a file: all of them, and what stands at the first byte of each and behind the last.
fn compare_records(sides: Sides<'_>, file: &[u8]) -> Check {
    let records = sides.both("the records", |side| side.records(file))?;
    let mut rest = file;
    for record in records.whole {
        let next = sides.both("the next record", |side| side.next_record(rest))?;
        agree("the record", &next, &Next::Found(record))?;
        rest = &rest[record.size..];
    }
    let last = sides.both("what is behind the records", |side| side.next_record(rest))?;
    agree("what is behind the records", &last, &if records.stop.is_some() { Next::Stop } else { Next::End })
}

/// Counts a file's records, and what it meets. A buffer is taken to be filled up whenever it holds less than a largest
/// record.
fn survey(tally: &mut Tally, file: &[u8]) {
    let mut rest = file;
    let mut buffered = BUFFER;
    while let listing::Next::Record { size, answer } = next_record(rest) {
        let at = file.len() - rest.len();
        tally.count(answer.map(|_| ()).map_err(|refusal| refusal.number));
        tally.meet_if((1..HEAD).contains(&(buffered - at)), HEAD_AT_END);
        if size == RECORD_MOST {
            tally.meet(LARGEST);
            tally.meet_if((at + size).abs_diff(buffered) < 10, LARGEST_AT_END);
            tally.meet_if(answer.is_ok_and(|line| line.total == SECTION_MOST), LARGEST_ACCEPTED);
        }
        if buffered < at + RECORD_MOST {
            buffered = at + BUFFER;
        }
        rest = &rest[size..];
    }
    tally.meet_neighbours(neighbours::record(rest));
    let ended_by = ended_by(rest);
    let too_long = section_length(rest) == SECTION_MOST + 1 && rest.len() > RECORD_MOST;
    tally.meet_if(ended_by == Some("length") && too_long, TOO_LONG);
    if rest.len() < file.len() && !rest.is_empty() {
        tally.meet(match ended_by {
            Some("cut head") => CUT_HEAD,
            Some("cut section") => CUT_SECTION,
            _ => WRONG_HEAD,
        });
    }
}

/// Compares two listings byte for byte; a difference shows the first line that differs.
pub(crate) fn compare(one: &str, other: &str) -> Check {
    if one != other {
        let mut lines = one.split_inclusive('\n').zip(other.split_inclusive('\n'));
        let (one, other) = lines.find(|(one, other)| one != other).unwrap_or((one, other));
        return agree("the listing's line", one, other);
    }
    Ok(())
}
