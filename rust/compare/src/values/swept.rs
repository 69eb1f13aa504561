//! Fixed sweeps of bodies: every BodyType of 16 bits and those next to a number's; every size up to 16 beside every
//! allocation; the patterns of a number by their high bits.

use std::iter;

use independent::generate::BODY_TYPES;

use crate::pairs::{near, HEADS};
use crate::report::{Check, Tally};
use crate::sections::described;
use crate::side::{BodyValue, Sides};

use super::{compare, written};

/// The most bytes of a body and of its allocation that are tried.
const MOST: usize = 16;
/// The low halves of 32 bits that are tried below every high half.
const LOW_HALVES: [u64; 3] = [0, 1, 0xFFFF];
/// The low bits of a 64-bit float that are tried below every sign and exponent.
const FRACTIONS: [u64; 6] =
    [0, 1, 0x7_FFFF_FFFF_FFFF, 0x8_0000_0000_0000, 0xF_FFFF_FFFF_FFFF, 0x1_2345_6789_ABCD];

/// Compares both sides on every sweep.
pub fn run(sides: Sides<'_>) -> Tally {
    let mut tally = Tally::new("values swept");
    let mut add = |input: &[u8], security_first, written: Check| {
        let answer = sides.one.read_value(input, security_first);
        let check = compare(sides, input, security_first).and(written);
        tally.add(&answer, check, || described(input, security_first));
    };
    for body_type in (0..=0xFFFF).chain(near(&BODY_TYPES)) {
        for size in [4, 8] {
            add(&section(b"", body_type, &[0x11; 8][..size], size), false, Ok(()));
        }
    }
    for body_type in BODY_TYPES.into_iter().chain([0]) {
        for (size, allocation) in (0..=MOST).flat_map(|size| (0..=MOST).map(move |room| (size, room))) {
            for (head, _, _) in HEADS {
                let input = section(head, body_type, &[0x22; MOST][..size], allocation);
                add(&input, !head.is_empty(), Ok(()));
            }
        }
    }
    for value in patterns() {
        let body = &value.bits().to_le_bytes()[..value.size()];
        let written = written::compare(sides, value, body.len() + 1);
        add(&section(b"", value.body_type(), body, body.len()), false, written);
    }
    tally
}

/// A section with nothing but this body behind `head`. The X bit in its Flags stands where a SecurityHeader would have
/// EB.
fn section(head: &[u8], body_type: u32, body: &[u8], allocation: usize) -> Vec<u8> {
    let [size, allocation] = [body.len(), allocation].map(|size| (size as u32).to_le_bytes());
    let padding = &[0; 3][..body.len().wrapping_neg() % 4];
    let fixed = [&[0x20][..], &[0; 23], &body_type.to_le_bytes(), &[0; 4], &size, &allocation, &[0; 16]];
    [head, &fixed.concat(), body, padding].concat()
}

/// Each kind with each high half of its bits; a 64-bit float with each sign and exponent.
fn patterns() -> impl Iterator<Item = BodyValue> {
    let halves = (0..=0xFFFF).flat_map(|high| LOW_HALVES.map(|low| high << 16 | low));
    let doubles = (0..=0xFFF).flat_map(|high: u64| FRACTIONS.map(|low| high << 52 | low));
    let singles = halves.flat_map(|bits| [3, 19, 4].map(|body_type| (body_type, bits)));
    let all = singles.chain(iter::repeat(5).zip(doubles));
    all.map(|(body_type, bits)| BodyValue::new(body_type, bits).expect("a number's type"))
}
