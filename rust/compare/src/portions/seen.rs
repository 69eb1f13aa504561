//! What the generated portions are to meet.

use std::collections::BTreeSet;
use std::ops::Range;

use independent::field::{field_of, NAMES};
use independent::generate::PortionsCase;
use independent::neighbours::{self, List};
use independent::number::{IDENTITY, INPUT_SHORT, LABEL, PROVIDER};
use independent::SECURITY_FIXED;

use crate::report::{Tally, OFTEN};
use crate::second::Independent;
use crate::side::{Answer, Call, FieldAt, Side, Summary};

use super::AFTER;

/// The most portions of a case of which it is counted what they cut.
const SURVEYED: usize = 12;
/// How often neighbouring steps are met, and cut fields, of which the identity's padding is never accepted.
const SELDOM: u64 = 20;
const RARE: u64 = 5;
/// The first field, before which nothing is cut, and the fields of one byte, which nothing cuts in two.
const FIRST: &str = NAMES[1];
const UNCUT: [&str; 2] = [NAMES[18], NAMES[19]];
/// More bytes than the longest name that is made.
const MORE: usize = 12_000;

/// What the cases are to meet, and how often.
type Met = (&'static str, u64, fn(&Seen<'_>) -> bool);
const MET: [Met; 21] = [
    ("no portion", OFTEN, |seen| seen.portions.is_empty()),
    ("an empty portion", OFTEN, |seen| seen.portions.contains(&0)),
    ("byte by byte", OFTEN, |seen| seen.portions.len() > 56 && seen.portions.iter().all(|&bytes| bytes < 2)),
    ("an empty portion after the finish", OFTEN, |seen| seen.after.contains(&Call::Portion(0))),
    ("a portion after an accepted finish", OFTEN, |seen| seen.is_fed_after() && seen.answer.is_ok()),
    ("a portion after a refused finish", OFTEN, |seen| seen.is_fed_after() && seen.answer.is_err()),
    ("a finish after an accepted one", OFTEN, |seen| seen.is_finished_again() && seen.answer.is_ok()),
    ("a finish after a refused one", OFTEN, |seen| seen.is_finished_again() && seen.answer.is_err()),
    ("bytes behind the section", OFTEN, |seen| seen.behind() > 0),
    ("a portion behind the section", OFTEN, |seen| {
        seen.answer.is_ok_and(|found| seen.cuts().any(|cut| cut >= found.length))
    }),
    ("over 65,535 bytes in all", SELDOM, |seen| seen.behind() > 0 && seen.input.len() > 65_535),
    ("a unit of the name in two portions", OFTEN, |seen| {
        seen.answer.is_ok_and(|found| seen.splits(name(&found)))
    }),
    ("a unit of the label in two portions", OFTEN, |seen| {
        seen.answer.is_ok_and(|found| seen.splits(label(&found)))
    }),
    ("the unit of 7 in two portions", OFTEN, |seen| seen.is_split_at(PROVIDER)),
    ("the unit of 12 in two portions", OFTEN, |seen| seen.is_split_at(LABEL)),
    ("a bad identity in a cut header", OFTEN, |seen| seen.cut_behind == Some(IDENTITY)),
    ("a bad name in a cut header", OFTEN, |seen| seen.cut_behind == Some(PROVIDER)),
    ("a bad label in a cut section", OFTEN, |seen| seen.cut_behind == Some(LABEL)),
    ("a label of 250 units", OFTEN, |seen| seen.answer.is_ok_and(|found| found.label_length == 250)),
    ("a name of over 1,000 units", OFTEN, |seen| seen.answer.is_ok_and(|found| name(&found).len() > 2_000)),
    ("a section of over 1,000,000 bytes", RARE, |seen| {
        seen.answer.is_ok_and(|found| found.length > 1_000_000)
    }),
];

/// Where the provider name stands.
pub fn name(summary: &Summary<'_>) -> Range<usize> {
    let provider = summary.parts.provider;
    (provider.start + 4).min(provider.start + provider.length)..provider.start + provider.length
}

fn label(summary: &Summary<'_>) -> Range<usize> {
    let label = summary.parts.label;
    label.start..label.start + label.length
}

/// All that the cases are to meet: beside [`MET`] neighbouring steps broken together, and each field and part cut from
/// the one before it, and in two.
pub fn is_to_meet(tally: &mut Tally) {
    MET.iter().for_each(|(what, least, _)| tally.is_to_meet(what, *least));
    let pairs = List::Reading.neighbours().into_iter().filter(|pair| pair.names[1] != "13");
    pairs.for_each(|pair| tally.is_to_meet(pair, SELDOM));
    for name in &NAMES[1..34] {
        if *name != FIRST {
            tally.is_to_meet(format!("{name} cut off"), RARE);
        }
        if !UNCUT.contains(name) {
            tally.is_to_meet(format!("{name} cut in two"), RARE);
        }
    }
}

/// A case, by what came before its first finish and by the independent reader.
pub struct Seen<'a> {
    /// What came.
    pub input: &'a [u8],
    security_first: bool,
    /// The bytes of each portion.
    portions: Vec<usize>,
    /// The calls after the finish.
    after: &'a [Call<usize>],
    /// What is said of the input.
    pub answer: Answer<Summary<'a>>,
    /// The number that it would be refused with, for bytes that came, if it were not short.
    cut_behind: Option<u32>,
}

impl<'a> Seen<'a> {
    pub fn new(case: &'a PortionsCase) -> Self {
        let portions = case.calls.iter().map_while(|call| match call {
            Call::Portion(bytes) => Some(*bytes),
            Call::Finish => None,
        });
        let portions: Vec<_> = portions.collect();
        let input = &case.bytes[..portions.iter().sum()];
        let after = &case.calls[portions.len() + 1..];
        let security_first = case.security_first;
        let answer = Independent.summarize(input, security_first);
        let cut_behind = cut_behind(input, security_first, &answer);
        Self { input, security_first, portions, after, answer, cut_behind }
    }

    /// What the last call gives, but for the summary.
    pub fn last(&self) -> Answer<()> {
        if self.after.is_empty() {
            self.answer.map(|_| ())
        } else {
            Err(AFTER)
        }
    }

    /// Counts what the case meets.
    pub fn survey(&self, tally: &mut Tally) {
        MET.iter().for_each(|(what, _, met)| tally.meet_if(met(self), what));
        tally.meet_neighbours(neighbours::reading(self.input, self.security_first, usize::MAX));
        if self.portions.len() <= SURVEYED {
            let cuts = self.cuts().map(|cut| field_of(self.input, self.security_first, 0, cut));
            let cuts: BTreeSet<_> = cuts.map(|FieldAt { field, offset }| (field, offset > 0)).collect();
            for (field, inside) in cuts.into_iter().filter(|(field, _)| *field != 0) {
                let how = if inside { "in two" } else { "off" };
                tally.meet(format!("{} cut {how}", NAMES[field as usize]));
            }
        }
    }

    /// Where portions end within the input.
    fn cuts(&self) -> impl Iterator<Item = usize> + '_ {
        let ends = self.portions.iter().scan(0, |end, bytes| {
            *end += bytes;
            Some(*end)
        });
        ends.filter(|end| (1..self.input.len()).contains(end))
    }

    fn is_fed_after(&self) -> bool {
        self.after.iter().any(|call| matches!(call, Call::Portion(1..)))
    }

    fn is_finished_again(&self) -> bool {
        self.after.contains(&Call::Finish)
    }

    /// The bytes behind an accepted section.
    fn behind(&self) -> usize {
        self.answer.map_or(0, |summary| self.input.len() - summary.length)
    }

    /// Whether a portion ends in a unit of the text there.
    fn splits(&self, text: Range<usize>) -> bool {
        self.cuts().any(|cut| text.contains(&cut) && (cut - text.start) % 2 == 1)
    }

    /// Whether a portion ends in the unit that is refused with this number.
    fn is_split_at(&self, number: u32) -> bool {
        let Err(refusal) = self.answer else { return false };
        refusal.number == number && refusal.place != 0 && self.cuts().any(|cut| cut == refusal.place + 1)
    }
}

/// The number that an input which is short would be refused with, were it whole, for bytes that came.
fn cut_behind(input: &[u8], security_first: bool, answer: &Answer<Summary<'_>>) -> Option<u32> {
    answer.as_ref().err().filter(|refusal| refusal.number == INPUT_SHORT)?;
    let mut whole = input.to_vec();
    whole.resize(input.len() + MORE, 1);
    let refusal = Independent.summarize(&whole, security_first).err()?;
    let came = input.len() >= SECURITY_FIXED + 2 && input.len() >= refusal.place + 2;
    came.then_some(refusal.number)
}
