//! The places of refusals (C-17), where a section is read and where it is written: both sides, and C-17's sentences.

use independent::cause::{self, Cause};
use independent::generate::{place_case, place_values, Case, OwnedValues, Random};
use independent::neighbours::List;
use independent::number::{OUTPUT_SHORT, PART_SIZE};
use independent::{LIMIT, PROPERTIES_FIXED, SECURITY_FIXED};

use crate::lend::lend;
use crate::report::{agree, require, values_in_hex, Check, Tally, OFTEN};
use crate::sections::{self, described};
use crate::side::{FieldAt, Refusal, SectionValues, Sides};
use crate::writing;

/// What is to be met beside every cause, and how often: a field behind a SecurityHeader as long as may be.
const ABOVE: &str = "a field above the limit";
const ABOVE_LEAST: u64 = 3;
/// How often the causes are met whose values are long.
const LONG_LEAST: u64 = 20;
/// The units of the longest label, and of the names of which each unit is tried.
const LABEL: usize = 250;
const NAME: usize = 70;
/// The units of long names, of which those next to blocks of units are tried.
const LONG_NAMES: [usize; 7] = [127, 128, 129, 256, 1_025, 4_096, 5_000];

/// Compares generated sections, which are to meet each cause of a refusal.
pub fn run_reading(sides: Sides<'_>, cases: u64, r: &mut Random) -> Tally {
    let mut tally = with_causes("places read", List::Reading);
    for _ in 0..cases {
        let Case { bytes, security_first } = place_case(r);
        let answer = sides.one.summarize(&bytes, security_first);
        let check = sections::compare(sides, &bytes, security_first, r).and_then(|()| {
            answer.err().map_or(Ok(()), |refusal| refused(sides, &bytes, security_first, refusal))
        });
        count(&mut tally, cause::reading(&bytes, security_first), answer.err());
        tally.add(&answer, check, || described(&bytes, security_first));
    }
    tally
}

/// Compares generated values, which are to meet each cause of a refusal.
pub fn run_writing(sides: Sides<'_>, cases: u64, r: &mut Random) -> Tally {
    let mut tally = with_causes("places written", List::Writing);
    for _ in 0..cases {
        let owned = place_values(r);
        let answer = writing::write(sides.one, &owned.as_values(), owned.room).answer;
        let check = writing::compare(sides, &owned)
            .and_then(|()| answer.err().map_or(Ok(()), |refusal| as_read(sides, &owned, refusal)));
        count(&mut tally, cause::writing(&owned.as_values(), owned.room), answer.err());
        tally.add(&answer, check, || values_in_hex(&owned));
    }
    tally
}

fn with_causes(name: &'static str, list: List) -> Tally {
    let mut tally = Tally::new(name);
    for cause in Cause::all(list) {
        let long = list == List::Writing && ["S8", "P5"].contains(&cause.step);
        tally.is_to_meet(cause, if long { LONG_LEAST } else { OFTEN });
    }
    tally.is_to_meet(ABOVE, ABOVE_LEAST);
    tally
}

/// Counts the cause of a refusal; 28 and 13 have none.
fn count(tally: &mut Tally, cause: Option<Cause>, refusal: Option<Refusal>) {
    if let Some(cause) = cause.filter(|cause| cause.step.starts_with(['S', 'P'])) {
        tally.meet(cause);
    }
    tally.meet_if(refusal.is_some_and(|refusal| refusal.place > LIMIT as usize), ABOVE);
}

/// "The place of a refusal by an S or P step .. becomes the first byte of the field that failed."
fn refused(sides: Sides<'_>, input: &[u8], security_first: bool, refusal: Refusal) -> Check {
    let found = sides.both("the refusal's field", |side| side.field_of(input, security_first, refusal))?;
    let dp_is_clear = input.first().is_some_and(|flags| flags & 0x80 == 0);
    let field = match refusal.number {
        2 | 3 => 1,
        4 if dp_is_clear => 1,
        4 | 6 => 2,
        5 => 5,
        9 => 19,
        10 => 20,
        11 => 25,
        7 if size_fails(input) => 34,
        1 | 8 if security_first && refusal.place == 0 => 34,
        1 | 8 => 35,
        number => {
            let part = if number == 7 { 16 } else { 30 };
            agree("the part that failed", &(found.field, found.offset % 2), &(part, 0))?;
            let next = sides.one.field_at(input, security_first, refusal.place + 2);
            return first_breaking(input, refusal.place, found.offset, next.field != part);
        }
    };
    agree("the field that failed", &found, &FieldAt { field, offset: 0 })
}

/// 01, S7.
fn size_fails(input: &[u8]) -> bool {
    let Some(&[flags, _, _, _, _, _, a, b, _, _, _, _, size @ ..]) = input.first_chunk::<SECURITY_FIXED>()
    else {
        return false;
    };
    match (u32::from_le_bytes(size), [a, b]) {
        (size, _) if flags & 0x40 != 0 => size != 0,
        (0, [0, 0]) => false,
        (size, signature) => size % 2 != 0 || size < if signature == [0, 0] { 6 } else { 8 },
    }
}

/// "It is the first unit that breaks the label rule": the unit at `place`, with so many bytes of its text before it.
fn first_breaking(input: &[u8], place: usize, before: usize, is_last: bool) -> Check {
    let units = &input[place - before..place];
    require("no unit before it is zero", !units.chunks_exact(2).any(|unit| unit == [0, 0]))?;
    require("a zero unit before the last, or the last", input[place..].starts_with(&[0, 0]) != is_last)
}

/// "The section writer's S and P steps get the same places, in the section that would be written."
fn as_read(sides: Sides<'_>, owned: &OwnedValues, refusal: Refusal) -> Check {
    if [PART_SIZE, OUTPUT_SHORT].contains(&refusal.number) {
        return agree("the place of 28 and 13", &refusal.place, &0);
    }
    let section = laid_out(&owned.as_values());
    let read = sides.one.summarize(&section, owned.security_first);
    agree("the refusal of the section that would be written", &read.err(), &Some(refusal))
}

/// The section that would be written. A size that does not fit in its field is the largest that does, which is refused
/// with the same number; so is that of an odd label.
fn laid_out(values: &SectionValues<'_>) -> Vec<u8> {
    let mut out = Vec::new();
    if values.security_first {
        let (id, key, cert) = (values.sender_id, values.encryption_key, values.sender_cert);
        let parts = [id, key, values.signature, cert, values.provider_info];
        out.extend(values.security_flags.to_le_bytes());
        parts[..3]
            .iter()
            .for_each(|part| out.extend(u16::try_from(part.len()).unwrap_or(u16::MAX).to_le_bytes()));
        parts[3..].iter().for_each(|part| out.extend(size(part.len() as u64)));
        for part in parts {
            out.extend(part);
            out.resize(out.len().next_multiple_of(4), 0);
        }
    }
    let odd = !values.label.len().is_multiple_of(2);
    let units = u8::try_from(values.label.len() / 2).ok().filter(|_| !odd);
    out.extend([values.flags, units.unwrap_or(u8::MAX)]);
    out.extend(values.message_class.to_le_bytes());
    out.extend([0; 28]); // CorrelationID, BodyType, ApplicationTag
    out.extend(size(values.body.len() as u64));
    out.extend(size(values.allocation_body_size));
    out.extend([0; 12]); // PrivacyLevel and both algorithms
    out.extend(size(values.extension.len() as u64));
    [values.label, values.extension, values.body].iter().for_each(|part| out.extend(*part));
    out.resize(out.len().next_multiple_of(4), 0);
    out
}

fn size(size: u64) -> [u8; 4] {
    u32::try_from(size).unwrap_or(u32::MAX).to_le_bytes()
}

/// Compares texts that break their rule at each unit: labels of every length, and provider names.
pub fn run_units(sides: Sides<'_>) -> Tally {
    let mut tally = Tally::new("places of units");
    let long = LONG_NAMES.iter().flat_map(|&units| near_blocks(units).map(move |unit| (units, unit)));
    let names = (1..=NAME).flat_map(|units| (0..units).map(move |unit| (units, unit))).chain(long);
    for (units, unit) in names {
        let provider_info = &[b"\x01\0\0\0", &text(units, unit)[..]].concat();
        add_unit(&mut tally, sides, &SectionValues { provider_info, ..keyed() }, 7, NAME_AT + 2 * unit);
    }
    for (units, unit) in (1..=LABEL).flat_map(|units| (0..units).map(move |unit| (units, unit))) {
        let label = &text(units, unit);
        add_unit(&mut tally, sides, &SectionValues { label, ..keyed() }, 12, KEYED + LABEL_AT + 2 * unit);
        let plain = SectionValues { label, ..SectionValues::default() };
        add_unit(&mut tally, sides, &plain, 12, LABEL_AT + 2 * unit);
    }
    tally
}

/// A SecurityHeader with a key of 4 bytes: its length, and where a name begins that is added.
const KEYED: usize = SECURITY_FIXED + 4;
const NAME_AT: usize = KEYED + 4;
/// Where the label begins in a MessagePropertiesHeader.
const LABEL_AT: usize = PROPERTIES_FIXED;

fn keyed() -> SectionValues<'static> {
    let values = SectionValues { security_first: true, security_flags: 0x0080, ..SectionValues::default() };
    SectionValues { encryption_key: b"akey", ..values }
}

/// The units next to a block of 16, and the first and last ones.
fn near_blocks(units: usize) -> impl Iterator<Item = usize> {
    (0..units).filter(move |unit| (unit + 2) % 16 < 4 || unit + 4 > units)
}

/// So many units, of which `unit` is the first that breaks the rule. Those before it have a zero byte each, on either
/// side in turn; those behind it are zero, but for every third.
fn text(units: usize, unit: usize) -> Vec<u8> {
    let one = |at: usize| match at {
        _ if at == units - 1 => [u8::from(unit == at), 0],
        _ if at < unit => [[1, 0], [0, 1]][at % 2],
        _ => [0, u8::from(at > unit && at.is_multiple_of(3))],
    };
    (0..units).flat_map(one).collect()
}

/// Reads and writes a section that is refused so.
fn add_unit(tally: &mut Tally, sides: Sides<'_>, values: &SectionValues<'_>, number: u32, place: usize) {
    let (section, wanted) = (laid_out(values), Err(Refusal { number, place }));
    let compare = || {
        let read = sides.both("the text read", |side| {
            side.summarize(&section, values.security_first).map(|summary| summary.length)
        })?;
        agree("the text read", &read, &wanted)?;
        let written =
            sides.both("the text written", |side| lend(0, |out| side.write_section(values, out)))?;
        agree("the text written", &written.answer, &wanted)
    };
    tally.add(&wanted, compare(), || values_in_hex(values));
}
