//! Sections read, copied and written again by both sides, and copies of them judged.

use independent::generate::{case, long_case, Case, Random};
use independent::neighbours::{self, List};
use independent::number::OUTPUT_SHORT;
use independent::PROPERTIES_FIXED;

use crate::bits;
use crate::lend::lend;
use crate::proposed;
use crate::report::{agree, hex, Check, Tally};
use crate::side::{Answer, Reading, Refusal, Sides, Summary};

/// One case in so many is long in fact.
const LONG: u64 = 2_000;
/// The stand-in for a label.
const STAND_IN: &[u8] = b"no label";
/// The shortest output that a copy is tried in where the input is refused: no section fits in it.
const SHORTEST: usize = PROPERTIES_FIXED - 1;
/// The refusal of an output that is short.
pub const SHORT: Refusal = Refusal { number: OUTPUT_SHORT, place: 0 };

/// Compares generated sections, read as they were made and the other way.
pub fn run(sides: Sides<'_>, cases: u64, r: &mut Random) -> [Tally; 2] {
    let sections = Tally::with_neighbours("sections", List::Reading);
    let mut tallies = [sections, Tally::new("sections the other way")];
    for number in 0..cases {
        let case = if number % LONG == LONG - 1 { long_case(r) } else { case(r) };
        let Case { bytes, security_first } = case;
        add(&mut tallies[0], sides, &bytes, security_first, r);
        tallies[0].meet_neighbours(neighbours::reading(&bytes, security_first, SHORTEST));
        add(&mut tallies[1], sides, &bytes, !security_first, r);
    }
    tallies
}

/// Compares one input and counts it.
pub fn add(tally: &mut Tally, sides: Sides<'_>, input: &[u8], security_first: bool, r: &mut Random) {
    let check = compare(sides, input, security_first, r);
    let answer = sides.one.summarize(input, security_first);
    tally.add(&answer, check, || described(input, security_first));
}

/// An input and how it is read.
pub fn described(input: &[u8], security_first: bool) -> String {
    format!("security first {security_first}, {}", hex(input))
}

/// Everything that both sides can be asked of one input.
pub fn compare(sides: Sides<'_>, input: &[u8], security_first: bool, r: &mut Random) -> Check {
    let reading = sides.both("the reading", |side| side.read(input, security_first))?;
    let summary = sides.both("the summary", |side| side.summarize(input, security_first))?;
    agree("the reading's summary", &reading.map(|reading| reading.summary), &summary)?;
    sides.both("the label shown", |side| side.label_shown(input, security_first, STAND_IN))?;
    compare_copies(sides, input, security_first, &summary, r)?;
    let ask =
        |what: &str, copy: &[u8]| sides.both(what, |side| side.is_support_copy(input, security_first, copy));
    proposed::compare(&ask, input, security_first, &summary, r)?;
    compare_written_again(sides, input, security_first, &reading)?;
    compare_same_summary(sides, input, security_first, &summary, r)
}

/// The support copy: into an output exactly long enough, into a longer one, and into one a byte short.
fn compare_copies(
    sides: Sides<'_>,
    input: &[u8],
    security_first: bool,
    summary: &Answer<Summary<'_>>,
    r: &mut Random,
) -> Check {
    let length = summary.map_or(SHORTEST + 1, |summary| summary.length);
    for room in [length, length + 1 + r.below(9), length - 1] {
        let copy = sides.both("the support copy", |side| {
            lend(room, |out| side.support_copy(input, security_first, out))
        })?;
        let wanted = summary.and_then(|_| if room < length { Err(SHORT) } else { Ok(length) });
        agree("the support copy's answer", &copy.answer, &wanted)?;
        copy.rest_stays()?;
    }
    Ok(())
}

/// The section written from what was read: the same with X bits and padding zero.
fn compare_written_again(
    sides: Sides<'_>,
    input: &[u8],
    security_first: bool,
    reading: &Answer<Reading<'_>>,
) -> Check {
    let Ok(reading) = reading else { return Ok(()) };
    let again = sides.both("the section written again", |side| {
        lend(reading.summary.length, |out| side.write_again(input, security_first, out))
    })?;
    let wanted = bits::only(&bits::carried(&reading.summary), input);
    again.is("the section written again", &Ok(&wanted))
}

/// The same summary: of the input with itself, with private bits changed, and with a judged bit flipped; of a refused
/// one with any bit flipped. The input's copy is that of the second and not of the third.
fn compare_same_summary(
    sides: Sides<'_>,
    input: &[u8],
    security_first: bool,
    summary: &Answer<Summary<'_>>,
    r: &mut Random,
) -> Check {
    let same = |what, b: &[u8], wanted: bool| {
        let one = sides.both(what, |side| side.same_summary(input, b, security_first))?;
        let turned = sides.both(what, |side| side.same_summary(b, input, security_first))?;
        agree(what, &[one, turned], &[wanted; 2])
    };
    same("the same summary as its own", input, summary.is_ok())?;
    let Ok(summary) = summary else {
        return same("the same summary of a refused one", &bits::flipped(input, r), false);
    };
    let judged = bits::judged(summary);
    let copy = bits::only(&judged, input);
    let copied = |what, b: &[u8], wanted: bool| {
        let said = sides.both(what, |side| side.is_support_copy(b, security_first, &copy))?;
        agree(what, &said, &wanted)
    };
    let agreeing = bits::private_changed(input, &judged, r);
    same("the same summary with private bits changed", &agreeing, true)?;
    copied("the copy of one with private bits changed", &agreeing, true)?;
    let another = bits::judged_flipped(input, &judged, summary, r);
    same("the same summary with a judged bit flipped", &another, false)?;
    copied("the copy of one with a judged bit flipped", &another, false)
}
