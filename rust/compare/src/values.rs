//! Bodies of a single number (C-16), with their section and without it: both sides, and C-16's sentences, which each of
//! them is held against by itself.

mod seen;
pub mod swept;
pub mod written;

use independent::generate::{special_values, typed_body, value_case, Case, Random};
use independent::neighbours::{self, List};
use independent::number::{BODY_ENCRYPTED, BODY_SIZE, BODY_TYPE};

use crate::lend::lend;
use crate::report::{agree, hex, Check, Tally, OFTEN};
use crate::sections::described;
use crate::side::{Answer, BodyValue, FieldAt, Reading, Refusal, Side, Sides};

use seen::Seen;

/// The BodyTypes of a single number, and how many bytes it has.
const KINDS: [(u32, u64); 4] = [(3, 4), (19, 4), (4, 4), (5, 8)];
/// EB in the SecurityHeader's Flags.
const EB: u16 = 0x0020;

/// Compares generated sections.
pub fn run(sides: Sides<'_>, cases: u64, r: &mut Random) -> Tally {
    let mut tally = Tally::with_neighbours("values read", List::Value);
    let mut special = Specials::new();
    seen::is_to_meet(&mut tally);
    for _ in 0..cases {
        let Case { bytes, security_first } = value_case(r);
        let seen = Seen::new(&bytes, security_first);
        seen.survey(&mut tally);
        special.meet(seen.value);
        let check = compare(sides, &bytes, security_first);
        let answer = sides.one.read_value(&bytes, security_first);
        tally.add(&answer, check, || described(&bytes, security_first));
    }
    special.counted(tally)
}

/// Compares generated bodies that come without their section.
pub fn run_bodies(sides: Sides<'_>, cases: u64, r: &mut Random) -> Tally {
    let mut tally = Tally::with_neighbours("values of bodies", List::Body);
    let mut special = Specials::new();
    for _ in 0..cases {
        let (body_type, body) = typed_body(r);
        let answer = sides.one.value_of(body_type, &body);
        special.meet(answer);
        tally.meet_neighbours(neighbours::body(body_type, &body));
        let check = hold(sides.one, body_type, &body).and_then(|()| hold(sides.other, body_type, &body));
        tally.add(&answer, check, || format!("BodyType {body_type:#x}, {}", hex(&body)));
    }
    special.counted(tally)
}

/// How often each special value was met.
struct Specials(Vec<(BodyValue, u64)>);

impl Specials {
    fn new() -> Self {
        Self(special_values().into_iter().map(|value| (value, 0)).collect())
    }

    fn meet(&mut self, answer: Answer<BodyValue>) {
        let met = self.0.iter_mut().find(|(value, _)| answer == Ok(*value));
        met.into_iter().for_each(|(_, times)| *times += 1);
    }

    /// The tally with the one that was met least: each is to be met often.
    fn counted(self, mut tally: Tally) -> Tally {
        let each = format!("each of {} special values", self.0.len());
        tally.is_to_meet(&each, OFTEN);
        let least = self.0.iter().map(|(_, times)| *times).min().unwrap_or(0);
        (0..least).for_each(|_| tally.meet(&each));
        tally
    }
}

/// The number that the body is, by both sides; and by what each of them reads of the section.
fn compare(sides: Sides<'_>, input: &[u8], security_first: bool) -> Check {
    let answer = sides.both("the value", |side| side.read_value(input, security_first))?;
    for side in [sides.one, sides.other] {
        let reading = side.read(input, security_first);
        let wanted = reading.and_then(|reading| of_reading(&reading));
        agree("the value by the section that was read", &answer, &wanted)?;
        let of_section = side.value_of_section(input, security_first);
        agree("the value of the section that was read", &of_section, &wanted)?;
        if let Ok(Reading { summary, parts: [.., body], .. }) = reading {
            hold(side, summary.body_type, body)?;
        }
    }
    match answer {
        Err(refusal) if [BODY_ENCRYPTED, BODY_TYPE, BODY_SIZE].contains(&refusal.number) => {
            let field = sides.both("its field", |side| side.field_of(input, security_first, refusal))?;
            agree("a refusal that no S or P step gives has no field", &field, &FieldAt::default())
        }
        _ => Ok(()),
    }
}

/// C-16's sentences on a body without its section for one side; "what is read writes back the same bytes".
fn hold(side: &dyn Side, body_type: u32, body: &[u8]) -> Check {
    let answer = side.value_of(body_type, body);
    agree("the value by BodyType and body", &answer, &of_body(body_type, body.len() as u64, body))?;
    let Ok(value) = answer else { return Ok(()) };
    let again = lend(body.len() + 1, |out| side.write_value(value, out));
    again.is("what is read writes back the same bytes", &Ok(body))
}

/// "The section's, then in this order 62 EB is set, 60 .., 61 ..", by a section that was read.
fn of_reading(reading: &Reading<'_>) -> Answer<BodyValue> {
    let Reading { summary, parts: [.., body], .. } = reading;
    if summary.security.is_some_and(|header| header.flags & EB != 0) {
        return refused(BODY_ENCRYPTED);
    }
    of_body(summary.body_type, summary.message_size, body)
}

/// "60 other type, 61 MessageSize is not 4, or not 8 for type 5"; the bits are put together from the last byte on.
fn of_body(body_type: u32, message_size: u64, body: &[u8]) -> Answer<BodyValue> {
    let Some((_, size)) = KINDS.iter().find(|(kind, _)| *kind == body_type) else {
        return refused(BODY_TYPE);
    };
    if message_size != *size {
        return refused(BODY_SIZE);
    }
    let bits = body.iter().rev().fold(0, |bits: u64, &byte| bits << 8 | u64::from(byte));
    Ok(match body_type {
        3 => BodyValue::I32(bits as u32 as i32),
        19 => BodyValue::U32(bits as u32),
        4 => BodyValue::F32(f32::from_bits(bits as u32)),
        _ => BodyValue::F64(f64::from_bits(bits)),
    })
}

fn refused<T>(number: u32) -> Answer<T> {
    Err(Refusal { number, place: 0 })
}
