//! What the generated sections with a number for a body are to meet.

use independent::neighbours;
use independent::value::read_value;
use independent::{cause, LIMIT};

use crate::report::{Tally, OFTEN};
use crate::second::Independent;
use crate::side::{Answer, BodyValue, Reading, Side};

use super::{EB, KINDS};

/// How often what takes long is to be met.
const RARE: u64 = 5;
/// C-16's steps.
const STEPS: [&str; 3] = ["62", "60", "61"];
/// The bit of the properties Flags that stands where a SecurityHeader has EB.
const X: u8 = 0x20;

/// What the sections are to meet that are accepted themselves, and how often.
type Met = (&'static str, u64, fn(&Seen<'_>, &Reading<'_>) -> bool);
const MET: [Met; 20] = [
    ("no SecurityHeader", OFTEN, |seen, reading| seen.is_read() && reading.summary.security.is_none()),
    ("a SecurityHeader", OFTEN, |seen, reading| seen.is_read() && reading.summary.security.is_some()),
    ("EB without a key", OFTEN, |_, reading| eb(reading) && key(reading).is_empty()),
    ("a key without EB", OFTEN, |seen, reading| seen.is_read() && !key(reading).is_empty()),
    ("an X bit where EB would be", OFTEN, |seen, reading| {
        seen.is_read() && reading.summary.security.is_none() && seen.input[0] & X != 0
    }),
    ("no byte", OFTEN, |seen, reading| seen.is_broken(&["61"]) && reading.summary.message_size == 0),
    ("3 bytes for 4", OFTEN, |seen, reading| seen.is_broken(&["61"]) && sizes(reading) == Some((3, 4))),
    ("5 bytes for 4", OFTEN, |seen, reading| seen.is_broken(&["61"]) && sizes(reading) == Some((5, 4))),
    ("8 bytes for 4", OFTEN, |seen, reading| seen.is_broken(&["61"]) && sizes(reading) == Some((8, 4))),
    ("4 bytes for 8", OFTEN, |seen, reading| seen.is_broken(&["61"]) && sizes(reading) == Some((4, 8))),
    ("7 bytes for 8", OFTEN, |seen, reading| seen.is_broken(&["61"]) && sizes(reading) == Some((7, 8))),
    ("9 bytes for 8", OFTEN, |seen, reading| seen.is_broken(&["61"]) && sizes(reading) == Some((9, 8))),
    ("the size in its low byte", OFTEN, |seen, reading| {
        seen.is_broken(&["61"]) && sizes(reading).is_some_and(|(found, wanted)| found & 0xFF == wanted)
    }),
    ("the size in its low 16 bits", OFTEN, |seen, reading| {
        seen.is_broken(&["61"]) && sizes(reading).is_some_and(|(found, wanted)| found & 0xFFFF == wanted)
    }),
    ("a type in its low byte", OFTEN, |seen, reading| seen.is_other_type(reading, 0xFF)),
    ("a type in its low 16 bits", OFTEN, |seen, reading| seen.is_other_type(reading, 0xFFFF)),
    ("an allocation above MessageSize", OFTEN, |seen, reading| {
        seen.is_read() && reading.summary.allocation_body_size > reading.summary.message_size
    }),
    ("an allocation that would pass", OFTEN, |seen, reading| {
        let allocation = reading.summary.allocation_body_size;
        seen.is_broken(&["61"]) && sizes(reading).is_some_and(|(_, wanted)| wanted == allocation)
    }),
    ("bytes behind the section", OFTEN, |seen, reading| {
        seen.is_read() && reading.summary.length < seen.input.len()
    }),
    ("a section as long as may be", RARE, |seen, reading| {
        seen.is_read() && reading.summary.length == LIMIT as usize
    }),
];

fn eb(reading: &Reading<'_>) -> bool {
    reading.summary.security.is_some_and(|header| header.flags & EB != 0)
}

fn key<'a>(reading: &Reading<'a>) -> &'a [u8] {
    reading.parts[1]
}

/// MessageSize, and what it has to be for a number's type.
fn sizes(reading: &Reading<'_>) -> Option<(u64, u64)> {
    let kind = KINDS.iter().find(|(body_type, _)| *body_type == reading.summary.body_type);
    kind.map(|(_, size)| (reading.summary.message_size, *size))
}

/// All that the sections are to meet: beside [`MET`] a body at each offset, C-16's steps in every combination, and each
/// of them behind each of the section's.
pub fn is_to_meet(tally: &mut Tally) {
    MET.iter().for_each(|(what, least, _)| tally.is_to_meet(what, *least));
    (0..4).for_each(|offset| tally.is_to_meet(at_offset(offset), OFTEN));
    for combination in 1..8 {
        let broken = STEPS.iter().zip(0..).filter(|(_, bit)| combination & 1 << bit != 0);
        tally.is_to_meet(together(&broken.map(|(step, _)| *step).collect::<Vec<_>>()), OFTEN);
    }
    for number in 1..=12 {
        STEPS.iter().for_each(|step| tally.is_to_meet(before(number, step), OFTEN));
    }
}

fn at_offset(offset: usize) -> String {
    format!("a body at 4k + {offset}")
}

fn together(broken: &[&str]) -> String {
    format!("just {}", broken.join(" and "))
}

fn before(number: u32, step: &str) -> String {
    format!("{number} before {step}")
}

/// A section, by the independent reader.
pub struct Seen<'a> {
    input: &'a [u8],
    security_first: bool,
    reading: Answer<Reading<'a>>,
    /// The number that its body is.
    pub value: Answer<BodyValue>,
    /// C-16's steps that it breaks.
    broken: Vec<&'static str>,
}

impl<'a> Seen<'a> {
    pub fn new(input: &'a [u8], security_first: bool) -> Self {
        let reading = Independent.read(input, security_first);
        let value = read_value(input, security_first);
        Self { input, security_first, reading, value, broken: cause::of_value(input, security_first) }
    }

    /// Counts what the section meets.
    pub fn survey(&self, tally: &mut Tally) {
        tally.meet_neighbours(neighbours::value(self.input, self.security_first));
        match &self.reading {
            Err(refusal) => self.broken.iter().for_each(|step| tally.meet(before(refusal.number, step))),
            Ok(reading) => {
                MET.iter().for_each(|(what, _, met)| tally.meet_if(met(self, reading), what));
                tally.meet_if(self.is_read(), at_offset(reading.summary.parts.body.start % 4));
                tally.meet_if(!self.is_read(), together(&self.broken));
            }
        }
    }

    /// Whether the body is a number.
    fn is_read(&self) -> bool {
        self.value.is_ok()
    }

    /// Whether it is none just by these steps.
    fn is_broken(&self, steps: &[&str]) -> bool {
        self.broken == steps
    }

    /// Whether the type is none of a number, but these bits of it are.
    fn is_other_type(&self, reading: &Reading<'_>, bits: u32) -> bool {
        self.is_broken(&["60"]) && KINDS.iter().any(|(kind, _)| *kind == reading.summary.body_type & bits)
    }
}
