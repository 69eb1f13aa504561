//! Day files read in a single call into a lent table (C-15): both sides, and C-15's sentences.

use std::collections::BTreeSet;

use independent::generate::{day_table, DayTable, Random};
use independent::listing::{next_record, push_line, section_length, Next, HEAD, HEADER};
use independent::neighbours::{self, List};
use independent::number::{BAD_RECORD, TOO_MANY_RECORDS};

use crate::listing;
use crate::report::{agree, hex, Check, Difference, Tally, OFTEN};
use crate::second::Independent;
use crate::side::{Answer, Line, Record, Records, Refusal, Side, Sides, Slot, Source};

/// "Up to 256 sections."
const MOST: usize = 256;

/// What the files and tables are to meet, and how often.
type Met = (&'static str, u64, fn(&Seen<'_>) -> bool);
const MET: [Met; 15] = [
    ("an empty file", OFTEN, |seen| seen.records == 0 && seen.ends_well()),
    ("an empty file in no slot", OFTEN, |seen| seen.records == 0 && seen.ends_well() && seen.slots == 0),
    ("a record in no slot", OFTEN, |seen| seen.records > 0 && seen.slots == 0),
    ("a bad first record in no slot", OFTEN, |seen| seen.is_bad_at(0) && seen.slots == 0),
    ("a full table", OFTEN, |seen| seen.records > 0 && seen.ends_well() && seen.records == seen.slots),
    ("one record too many", OFTEN, |seen| seen.ends_well() && seen.records == seen.slots + 1),
    ("a slot behind the last answer", OFTEN, |seen| seen.records > 0 && seen.records < seen.slots),
    ("256 records", MANY, |seen| seen.records == MOST && seen.ends_well() && seen.slots >= MOST),
    ("257 records in 257 slots or more", MANY, |seen| seen.records == MOST + 1 && seen.slots > MOST),
    ("a bad record behind a full table", OFTEN, |seen| seen.slots > 0 && seen.is_bad_at(seen.slots)),
    ("a bad record behind too many", OFTEN, |seen| !seen.ends_well() && seen.records > seen.slots),
    ("a bad record behind 256", MANY, |seen| seen.is_bad_at(MOST) && seen.slots >= MOST),
    ("too many with those behind a bad one", OFTEN, |seen| {
        seen.is_filled() && seen.records + seen.behind_bad() > seen.slots
    }),
    ("a section shorter than its record", OFTEN, |seen| seen.is_filled() && seen.shorter),
    ("a record of length 0", OFTEN, |seen| seen.is_filled() && seen.empty),
];
/// How often they are to meet what takes about 256 records.
const MANY: u64 = 50;

/// What a day file read into a table gave.
#[derive(Debug, PartialEq, Eq)]
pub struct Day {
    /// The number of records, or the refusal.
    pub answer: Answer<usize>,
    /// What came of each slot.
    pub table: Vec<Slot>,
}

impl Day {
    /// With `answers` in the first slots, and the others kept.
    pub fn new(answer: Answer<usize>, answers: &[Answer<Line>], slots: usize) -> Self {
        let mut table: Vec<_> = answers.iter().copied().map(Slot::Filled).collect();
        table.resize(slots, Slot::Kept);
        Self { answer, table }
    }

    /// A difference unless this is `wanted`; it shows the first slot that differs.
    pub fn is(&self, wanted: &Self) -> Check {
        agree("the day's records", &self.answer, &wanted.answer)?;
        let mut slots = self.table.iter().zip(&wanted.table).enumerate();
        let differs = slots.find(|(_, (found, wanted))| found != wanted);
        differs.map_or(Ok(()), |(at, (found, wanted))| agree(&format!("slot {at}"), found, wanted))
    }
}

/// Reads a day file into `slots` slots.
pub fn read(side: &dyn Side, file: &[u8], slots: usize) -> Day {
    let mut table = vec![Slot::Spoilt; slots];
    let answer = side.read_day(file, &mut table);
    Day { answer, table }
}

/// Compares generated files and tables.
pub fn run(sides: Sides<'_>, cases: u64, r: &mut Random) -> Tally {
    let mut tally = Tally::with_neighbours("days read", List::Record);
    MET.iter().for_each(|(what, least, _)| tally.is_to_meet(what, *least));
    (1..=12).for_each(|number| tally.is_to_meet(in_a_slot(number), OFTEN));
    for _ in 0..cases {
        let DayTable { file, slots } = day_table(r);
        survey(&mut tally, &file, slots);
        let day = read(sides.one, &file, slots);
        let check = compare(sides, &file, &day);
        tally.add(&day.answer, check, || format!("{slots} slots, {}", hex(&file)));
    }
    tally
}

/// A section's refusal that is an answer.
fn in_a_slot(number: u32) -> String {
    format!("{number} in a slot")
}

/// Compares what one side gave with the other, and each side with its own records.
fn compare(sides: Sides<'_>, file: &[u8], day: &Day) -> Check {
    let slots = day.table.len();
    day.is(&read(sides.other, file, slots))?;
    for side in [sides.one, sides.other] {
        day.is(&wanted(side, file, slots)?)?;
    }
    as_listed(file, day)
}

/// What C-15 says of a file, by the records that a side finds in it one after the other.
fn wanted(side: &dyn Side, file: &[u8], slots: usize) -> Result<Day, Difference> {
    let Records { whole, stop } = side.records(file);
    if whole.len() > slots || whole.len() > MOST {
        return Ok(Day::new(Err(Refusal { number: TOO_MANY_RECORDS, place: 0 }), &[], slots));
    }
    for record in &whole {
        agree("a record's answer and reading it alone", &record.answer, &alone(side, record))?;
    }
    let answers: Vec<_> = whole.iter().map(|record| record.answer).collect();
    let bad = stop.map(|(number, _)| Refusal { number: BAD_RECORD, place: number });
    Ok(Day::new(bad.map_or(Ok(whole.len()), Err), &answers, slots))
}

/// The values of a record's line, by its section's summary.
fn alone(side: &dyn Side, record: &Record<'_>) -> Answer<Line> {
    side.summarize(record.section, record.security_first).map(|summary| Line {
        class: summary.message_class,
        label: summary.label_length,
        extension: summary.extension_size as u32,
        body: summary.message_size as u32,
        total: summary.length,
    })
}

/// "Each answer the values of its listing line": the lines of the filled slots are those that the listing prints.
fn as_listed(file: &[u8], day: &Day) -> Check {
    let (count, last) = match day.answer {
        Ok(count) => (count, "end"),
        Err(Refusal { number: BAD_RECORD, place }) => (place, "stop"),
        Err(_) => return Ok(()),
    };
    let mut lines = HEADER.as_bytes().to_vec();
    for (slot, number) in day.table.iter().zip(0..) {
        if let Slot::Filled(answer) = slot {
            push_line(&mut lines, number, answer);
        }
    }
    lines.extend(format!("{last} {count}\n").bytes());
    let listed = Independent.list(file, Source::Pipe).expect("a file in memory is listed");
    listing::compare(&String::from_utf8_lossy(&lines), &String::from_utf8_lossy(&listed))
}

/// A case, by the records of its file.
struct Seen<'a> {
    slots: usize,
    /// Whole records before the end, or before a bad one.
    records: usize,
    /// What stands behind them.
    rest: &'a [u8],
    /// Whether a section is shorter than its record.
    shorter: bool,
    /// Whether a record has length 0.
    empty: bool,
    /// The refusals of the sections.
    refused: BTreeSet<u32>,
}

impl<'a> Seen<'a> {
    fn new(file: &'a [u8], slots: usize) -> Self {
        let (records, shorter, empty, refused) = Default::default();
        let mut seen = Self { slots, records, rest: file, shorter, empty, refused };
        while let Next::Record { size, answer } = next_record(seen.rest) {
            seen.records += 1;
            seen.rest = &seen.rest[size..];
            seen.shorter |= answer.is_ok_and(|line| HEAD + line.total < size);
            seen.empty |= size == HEAD;
            seen.refused.extend(answer.err().map(|refusal| refusal.number));
        }
        seen
    }

    fn ends_well(&self) -> bool {
        self.rest.is_empty()
    }

    fn is_bad_at(&self, number: usize) -> bool {
        self.records == number && !self.ends_well()
    }

    /// Whole records behind the bad one, where its length leads to them.
    fn behind_bad(&self) -> usize {
        let behind = self.rest.get(HEAD + section_length(self.rest)..);
        behind.map_or(0, |rest| Self::new(rest, 0).records)
    }

    fn is_filled(&self) -> bool {
        self.records <= self.slots && self.records <= MOST
    }
}

/// Counts what a case meets.
fn survey(tally: &mut Tally, file: &[u8], slots: usize) {
    let seen = Seen::new(file, slots);
    MET.iter().for_each(|(what, _, met)| tally.meet_if(met(&seen), what));
    if seen.is_filled() {
        seen.refused.iter().for_each(|&number| tally.meet(in_a_slot(number)));
    }
    tally.meet_neighbours(neighbours::record(seen.rest));
}
