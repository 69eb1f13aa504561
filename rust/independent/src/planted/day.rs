//! A day's file read into a table otherwise than C-15 says.

use crate::day::DAY_MOST;
use crate::listing::{self, section_length, whole_by, Answer, Line, Next, RecordStep, Whole, HEAD, RECORD};
use crate::{number, Refusal};

use super::places::in_reading;
use super::{label_in_bytes, WrongPlace, HEAD_TESTS};

/// Wrong ways to read a day's file.
#[derive(Debug, Clone, Copy, PartialEq, Eq)]
pub enum WrongDay {
    /// The bad record is counted for 16.
    BadCounted,
    /// So are the records behind it, where its length leads to them.
    BehindCounted,
    /// Slots are filled before 16.
    FilledFirst,
    /// 16 at the number of the first record without a slot.
    TooManyAtRecord,
    /// 15 comes before 16.
    BadFirst,
    /// Another number of records than 256 is the most.
    Most(usize),
    /// A full table is refused.
    FullRefused,
    /// A table without a slot is refused, also where the file has no record.
    NoSlotRefused,
    /// 15 at the bad record's offset in the file.
    BadAtOffset,
    /// 15 at the bad record's number counted from 1.
    BadFromOne,
    /// 15 at the low byte of the bad record's number.
    BadCut,
    /// 15 at 0.
    BadAtStart,
    /// The answers before a bad record are not filled.
    NotFilled,
    /// The slot of the bad record is filled with the refusal.
    BadFilled,
    /// Slots behind the last answer are cleared.
    RestCleared,
    /// The last slot of a full table stays.
    LastLeft,
    /// The slot of a refused section stays.
    RefusedLeft,
    /// The place in a slot that holds a refusal stays where it gets another one.
    PlaceLeft,
    /// Places are counted from the file's start.
    FromFile,
    /// Places are counted from the record's head.
    FromHead,
    /// Places are other than C-17's.
    Placed(WrongPlace),
    /// The record's length stands for the section's.
    RecordLength,
    /// The label's bytes stand for its units.
    LabelInBytes,
    /// The rest of the file is the section's input.
    RestAsInput,
    /// The head's byte for security is not looked at.
    SecurityIgnored,
    /// A refused section is taken for a bad record.
    RefusedBad,
    /// A record of length 0 is taken for a bad one.
    EmptyBad,
    /// The next record is looked for behind the section, and not behind the record.
    BehindSection,
    /// This test of a head is left out.
    Without(&'static str),
    /// Bytes too few for a head are taken for the file's end.
    CutHeadEnds,
    /// The file's end is taken for a cut head.
    EndBad,
    /// The result is the number of accepted records.
    AcceptedCounted,
    /// The result is the low byte of the number of records.
    ResultCut,
}

impl WrongDay {
    /// All of them.
    pub fn all() -> Vec<Self> {
        let mut all = vec![
            Self::BadCounted,
            Self::BehindCounted,
            Self::FilledFirst,
            Self::TooManyAtRecord,
            Self::BadFirst,
            Self::FullRefused,
            Self::NoSlotRefused,
            Self::BadAtOffset,
            Self::BadFromOne,
            Self::BadCut,
            Self::BadAtStart,
            Self::NotFilled,
            Self::BadFilled,
            Self::RestCleared,
            Self::LastLeft,
            Self::RefusedLeft,
            Self::PlaceLeft,
            Self::FromFile,
            Self::FromHead,
            Self::RecordLength,
            Self::LabelInBytes,
            Self::RestAsInput,
            Self::SecurityIgnored,
            Self::RefusedBad,
            Self::EmptyBad,
            Self::BehindSection,
            Self::CutHeadEnds,
            Self::EndBad,
            Self::AcceptedCounted,
            Self::ResultCut,
        ];
        all.extend([DAY_MOST - 1, DAY_MOST + 1, usize::MAX].map(Self::Most));
        all.extend([WrongPlace::HeaderStart, WrongPlace::LastUnit].map(Self::Placed));
        all.extend(HEAD_TESTS.map(Self::Without));
        all
    }

    /// The tests before a record is read.
    fn order(self) -> Vec<RecordStep> {
        let mut order = RECORD.to_vec();
        let mut answer = |name, answer| {
            order.iter_mut().filter(|step| step.name == name).for_each(|step| step.answer = answer);
        };
        match self {
            Self::CutHeadEnds => answer("cut head", Next::End),
            Self::EndBad => answer("end", Next::Stop),
            Self::Without(test) => order.retain(|step| step.name != test),
            _ => {}
        }
        order
    }

    /// Whether a whole record is taken for a bad one.
    fn is_bad(self, record: &Whole<'_>) -> bool {
        match self {
            Self::RefusedBad => line(record).is_err(),
            Self::EmptyBad => record.section.is_empty(),
            _ => false,
        }
    }

    /// What is left behind a record of `rest`.
    fn behind<'a>(self, record: &Whole<'a>, rest: &'a [u8]) -> &'a [u8] {
        let shorter = if self == Self::BehindSection { line(record).ok() } else { None };
        shorter.map_or(record.behind, |line| &rest[HEAD + line.total..])
    }

    /// The records of a file.
    fn found(self, file: &[u8]) -> Found<'_> {
        let (order, mut records, mut rest) = (self.order(), Vec::new(), file);
        let bad = loop {
            match whole_by(&order, rest) {
                Ok(record) if !self.is_bad(&record) => {
                    records.push(record);
                    rest = self.behind(&record, rest);
                }
                Err(step) => break step.answer != Next::End,
                Ok(_) => break true,
            }
        };
        Found { file, records, rest, bad }
    }

    /// How many records are counted for 16.
    fn counted(self, found: &Found<'_>) -> usize {
        let whole = found.records.len();
        match self {
            Self::BadCounted => whole + usize::from(found.bad),
            Self::BehindCounted => {
                let behind = found.rest.get(HEAD + section_length(found.rest)..);
                whole + behind.map_or(0, |rest| self.found(rest).records.len())
            }
            _ => whole,
        }
    }

    /// Whether so many records are more than the slots, or than one call reads.
    fn is_too_many(self, records: usize, slots: usize) -> bool {
        match self {
            Self::Most(most) => records > slots || records > most,
            Self::FullRefused => records >= slots || records > DAY_MOST,
            Self::NoSlotRefused if slots == 0 => true,
            _ => records > slots || records > DAY_MOST,
        }
    }

    /// The answer of a record of `file`.
    fn answer(self, record: &Whole<'_>, file: &[u8]) -> Answer {
        let Whole { section, security_first, behind } = *record;
        let at = file.len() - behind.len() - section.len();
        let right = line(record);
        let moved = |by| right.map_err(|refusal| Refusal { place: refusal.place + by, ..refusal });
        match self {
            Self::FromFile => moved(at),
            Self::FromHead => moved(HEAD),
            Self::Placed(wrong) => right.map_err(|right| in_reading(wrong, section, security_first, right)),
            Self::RecordLength => right.map(|line| Line { total: section.len(), ..line }),
            Self::LabelInBytes => label_in_bytes(&right),
            Self::RestAsInput => listing::answer(&file[at..], security_first),
            Self::SecurityIgnored => listing::answer(section, false),
            _ => right,
        }
    }

    /// Fills the slots of the records that were found, as far as there are any.
    fn fill(self, found: &Found<'_>, table: &mut [Answer]) {
        let slots = table.len();
        for ((slot, record), number) in table.iter_mut().zip(&found.records).zip(1..) {
            let answer = self.answer(record, found.file);
            match (self, answer, &mut *slot) {
                (Self::LastLeft, ..) if number == slots => {}
                (Self::RefusedLeft, Err(_), _) => {}
                (Self::PlaceLeft, Err(refusal), Err(held)) => held.number = refusal.number,
                _ => *slot = answer,
            }
        }
        let behind = table.get_mut(found.records.len()..).unwrap_or_default();
        match (self, behind) {
            (Self::RestCleared, behind) => behind.fill(Err(Refusal::at_start(0))),
            (Self::BadFilled, [slot, ..]) if found.bad => *slot = Err(self.bad(found)),
            _ => {}
        }
    }

    /// The refusal of the bad record.
    fn bad(self, found: &Found<'_>) -> Refusal {
        let count = found.records.len();
        let place = match self {
            Self::BadAtOffset => found.file.len() - found.rest.len(),
            Self::BadFromOne => count + 1,
            Self::BadCut => count & 0xFF,
            Self::BadAtStart => 0,
            _ => count,
        };
        Refusal { number: number::BAD_RECORD, place }
    }

    /// The result where nothing is refused.
    fn result(self, found: &Found<'_>) -> usize {
        let count = found.records.len();
        match self {
            Self::AcceptedCounted => found.records.iter().filter(|record| line(record).is_ok()).count(),
            Self::ResultCut => count & 0xFF,
            _ => count,
        }
    }
}

/// The records of a file before its end, or before a bad one.
struct Found<'a> {
    file: &'a [u8],
    records: Vec<Whole<'a>>,
    /// What stands behind them.
    rest: &'a [u8],
    /// Whether that begins with a bad record.
    bad: bool,
}

/// A record's right answer.
fn line(record: &Whole<'_>) -> Answer {
    listing::answer(record.section, record.security_first)
}

/// Reads a day's file wrongly.
pub fn read_day(wrong: WrongDay, file: &[u8], table: &mut [Answer]) -> Result<usize, Refusal> {
    let found = wrong.found(file);
    let refused_first = wrong == WrongDay::BadFirst && found.bad;
    if wrong.is_too_many(wrong.counted(&found), table.len()) && !refused_first {
        if wrong == WrongDay::FilledFirst {
            wrong.fill(&found, table);
        }
        let place = if wrong == WrongDay::TooManyAtRecord { table.len().min(DAY_MOST) } else { 0 };
        return Err(Refusal { number: number::TOO_MANY_RECORDS, place });
    }
    if !(wrong == WrongDay::NotFilled && found.bad) {
        wrong.fill(&found, table);
    }
    if found.bad {
        Err(wrong.bad(&found))
    } else {
        Ok(wrong.result(&found))
    }
}
