//! Numbers written as bodies by both sides, and read again.

use independent::generate::{value_and_room, Random};

use crate::lend::lend;
use crate::report::{agree, require, Check, Tally, OFTEN};
use crate::sections::SHORT;
use crate::side::{BodyValue, SectionValues, Side, Sides, Told};

use super::Specials;

/// The most bytes of a section with a number: its SecurityHeader has a key.
const ROOM: usize = 20 + 56 + 8;
/// The kinds by their names.
const KINDS: [&str; 4] = ["I32", "U32", "F32", "F64"];
/// How many bytes are lent, and whether that is so for a number of this size.
type Lent = (&'static str, fn(usize, usize) -> bool);
const LENT: [Lent; 5] = [
    ("no byte", |room, _| room == 0),
    ("a byte short", |room, size| room + 1 == size),
    ("its own bytes", |room, size| room == size),
    ("a byte more", |room, size| room == size + 1),
    ("more", |room, size| room > size + 1),
];

/// Compares generated numbers.
pub fn run(sides: Sides<'_>, cases: u64, r: &mut Random) -> Tally {
    let (mut tally, mut special) = (Tally::new("values written"), Specials::new());
    for kind in KINDS {
        LENT.iter().for_each(|(lent, _)| tally.is_to_meet(format!("{kind} in {lent}"), OFTEN));
    }
    for _ in 0..cases {
        let (value, room) = value_and_room(r);
        special.meet(Ok(value));
        for (lent, met) in LENT {
            tally.meet_if(met(room, value.size()), format!("{} in {lent}", kind(value)));
        }
        let answer = lend(room, |out| sides.one.write_value(value, out)).answer;
        let check = compare(sides, value, room).and_then(|()| compare_same(sides, value, r));
        tally.add(&answer, check, || format!("{value:?} in {room} bytes"));
    }
    special.counted(tally)
}

fn kind(value: BodyValue) -> &'static str {
    match value {
        BodyValue::I32(_) => KINDS[0],
        BodyValue::U32(_) => KINDS[1],
        BodyValue::F32(_) => KINDS[2],
        BodyValue::F64(_) => KINDS[3],
    }
}

/// What C-16 says of a number, by its kind: its bytes are the lowest of its bits first.
fn wanted(value: BodyValue) -> Told {
    let (body_type, bits, size) = match value {
        BodyValue::I32(number) => (3, u64::from(number as u32), 4),
        BodyValue::U32(number) => (19, u64::from(number), 4),
        BodyValue::F32(number) => (4, u64::from(number.to_bits()), 4),
        BodyValue::F64(number) => (5, number.to_bits(), 8),
    };
    let body = (0..size).map(|byte| (bits >> (8 * byte)) as u8).collect();
    Told { body_type, bits, size, body }
}

/// Writes a number with both sides: to so many lent bytes, to its own and to one less, "only 13"; and what each of them
/// wrote has to read back.
pub(super) fn compare(sides: Sides<'_>, value: BodyValue, room: usize) -> Check {
    let told = wanted(value);
    for room in [room, told.size, told.size - 1] {
        let written =
            sides.both("the value written", |side| lend(room, |out| side.write_value(value, out)))?;
        let answer = if room < told.size { Err(SHORT) } else { Ok(&told.body[..]) };
        written.is("the value written", &answer)?;
    }
    for side in [sides.one, sides.other] {
        agree("what is said of the value", &side.told(value), &told)?;
        reads_back(side, value, &told)?;
    }
    Ok(())
}

/// What is written, put into a section of the value's BodyType, reads back; behind a SecurityHeader too.
fn reads_back(side: &dyn Side, value: BodyValue, told: &Told) -> Check {
    let Told { body_type, size, body, .. } = told;
    let values = SectionValues {
        body_type: *body_type,
        body,
        allocation_body_size: *size as u64,
        security_flags: 0x0080,
        encryption_key: b"akey",
        ..SectionValues::default()
    };
    for security_first in [false, true] {
        let values = SectionValues { security_first, ..values };
        let section = lend(ROOM, |out| side.write_section(&values, out));
        let read = side.read_value(section.bytes(), security_first);
        agree("what is written reads back", &read, &Ok(value))?;
    }
    agree("what is written reads back alone", &side.value_of(*body_type, body), &Ok(value))
}

/// Values are the same by kind and bits: not with one bit flipped, nor with the same bits of another kind.
fn compare_same(sides: Sides<'_>, value: BodyValue, r: &mut Random) -> Check {
    let Told { body_type, bits, size, .. } = wanted(value);
    let flipped = BodyValue::new(body_type, bits ^ 1 << r.below(8 * size));
    let highest = BodyValue::new(body_type, bits ^ 1 << (8 * size - 1));
    let other_kind = BodyValue::new(r.pick(&[3, 19, 4, 5]), bits).filter(|other| kind(*other) != kind(value));
    for side in [sides.one, sides.other] {
        require("a value is itself", side.same_value(value, value))?;
        for other in [flipped, highest, other_kind].into_iter().flatten() {
            require("another value is not", !side.same_value(value, other))?;
        }
    }
    Ok(())
}
