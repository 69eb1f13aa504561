//! The fields and parts that places lie in, named by both sides: each place of a short input, some of a long one, and
//! behind both.

use independent::field::NAMES;
use independent::generate::{place_case, Case, Random};
use independent::{Part, PROPERTIES_FIXED, SECURITY_FIXED};

use crate::report::{agree, Difference, Tally, OFTEN};
use crate::sections::described;
use crate::side::{FieldAt, Refusal, Sides, Summary};

/// The longest input of which each place is asked; of a longer one so many are.
const SHORT: usize = 300;
const ASKED: usize = 24;
/// The numbers that a refusal can have, and some that it cannot.
const NUMBERS: usize = 40;

/// The offsets of 01's fixed fields, by number: from 1 on those of a SecurityHeader, from 18 on the others.
const SECURITY: [usize; 6] = [0, 2, 4, 6, 8, 12];
const PROPERTIES: [usize; 12] = [0, 1, 2, 4, 24, 28, 32, 36, 40, 44, 48, 52];

/// Compares the names of places in generated sections, which are to meet every field and part.
pub fn run(sides: Sides<'_>, cases: u64, r: &mut Random) -> Tally {
    let mut tally = Tally::new("fields named");
    for name in NAMES {
        tally.is_to_meet(name, OFTEN);
    }
    for _ in 0..cases {
        let Case { bytes, security_first } = place_case(r);
        let named = compare(sides, &bytes, security_first, r);
        let answer = sides.one.summarize(&bytes, security_first);
        let check = named.map(|named| {
            let mut met: Vec<_> = named.iter().map(|found| found.field).collect();
            met.dedup();
            met.iter().for_each(|&field| tally.meet(NAMES[field as usize]));
        });
        tally.add(&answer, check, || described(&bytes, security_first));
    }
    tally
}

/// What both sides call the places of `input`, with any number beside some of them.
fn compare(
    sides: Sides<'_>,
    input: &[u8],
    security_first: bool,
    r: &mut Random,
) -> Result<Vec<FieldAt>, Difference> {
    let summary = sides.one.summarize(input, security_first);
    let starts = summary.as_ref().map(starts);
    let mut all = Vec::new();
    for place in places(input, r) {
        let found = sides.both("the field at a place", |side| side.field_at(input, security_first, place))?;
        if let (Ok(summary), Ok(starts)) = (&summary, &starts) {
            agree("the field by its start", &found, &by_start(starts, summary.length, place))?;
        }
        all.push(found);
    }
    for _ in 0..4 {
        let refusal = Refusal { number: r.below(NUMBERS) as u32, place: place(input, r) };
        let found = sides.both("a refusal's field", |side| side.field_of(input, security_first, refusal))?;
        let wanted = match (refusal.number, refusal.place) {
            (1 | 7 | 8, 0) if security_first => FieldAt { field: 34, offset: 0 },
            (1 | 8, _) | (7, 0) => FieldAt { field: 35, offset: 0 },
            (13.., _) => FieldAt::default(),
            (_, place) => sides.one.field_at(input, security_first, place),
        };
        agree("a refusal's field", &found, &wanted)?;
        all.push(found);
    }
    Ok(all)
}

/// The places that are asked.
fn places(input: &[u8], r: &mut Random) -> Vec<usize> {
    if input.len() <= SHORT {
        return (0..input.len() + 2).chain([usize::MAX]).collect();
    }
    (0..ASKED).map(|_| place(input, r)).collect()
}

/// A place: of a fixed field, anywhere, at the end, or behind it.
fn place(input: &[u8], r: &mut Random) -> usize {
    match r.below(8) {
        0 | 1 => r.below(SECURITY_FIXED + PROPERTIES_FIXED),
        2 => 0,
        3 => (input.len() + r.below(64)).saturating_sub(r.below(64)),
        4 => r.pick(&[usize::MAX, usize::MAX / 2, 1 << 32, input.len()]),
        _ => r.below(input.len() + 1),
    }
}

/// Where each field and part of an accepted section begins, in their order; those without bytes are left out.
fn starts(summary: &Summary<'_>) -> Vec<(u32, usize)> {
    let parts = &summary.parts;
    let mut starts = Vec::new();
    if summary.security.is_some() {
        starts.extend((1..).zip(SECURITY));
        for (part, field) in
            [(parts.identity, 7), (parts.key, 9), (parts.signature, 11), (parts.certificate, 13)]
        {
            push(&mut starts, part, &[(field, 0)], field + 1);
        }
        push(&mut starts, parts.provider, &[(15, 0), (16, 4)], 17);
    }
    let at = parts.label.start - PROPERTIES_FIXED;
    starts.extend((18..).zip(PROPERTIES.map(|offset| at + offset)));
    let last = [(30, parts.label), (31, parts.extension), (32, parts.body)];
    starts.extend(last.iter().filter(|(_, part)| part.length != 0).map(|(field, part)| (*field, part.start)));
    starts.push((33, parts.body.start + parts.body.length));
    starts
}

/// Adds a part of a SecurityHeader, what is in it, and its padding.
fn push(starts: &mut Vec<(u32, usize)>, part: Part, fields: &[(u32, usize)], padding: u32) {
    if part.length != 0 {
        starts.extend(fields.iter().map(|(field, offset)| (*field, part.start + offset)));
        starts.push((padding, part.start + part.length));
    }
}

/// The last field that begins at `place` or before it, within the section.
fn by_start(starts: &[(u32, usize)], length: usize, place: usize) -> FieldAt {
    let last = starts.iter().rfind(|(_, start)| *start <= place && place < length);
    last.map_or(FieldAt::default(), |&(field, start)| FieldAt { field, offset: place - start })
}
