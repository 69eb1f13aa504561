//! Bodies of a single number (C-16): sections that have one or nearly one, bodies that come without their
//! section, and numbers to be written.

use super::section::damage;
use super::{Case, Draft, Random};
use crate::lists::{number_size, F32, F64, I32, U32};
use crate::order::names;
use crate::steps::VALUE;
use crate::value::Value;
use crate::{LIMIT, PROPERTIES_FIXED};

/// The BodyTypes of a single number.
pub const BODY_TYPES: [u32; 4] = [I32, U32, F32, F64];
/// Types next to them, types of other numbers, and ones that have one of them in their low, their high or
/// their other bits.
const OTHER_TYPES: [u32; 30] = [
    0, 1, 2, 6, 7, 8, 17, 18, 20, 21, 22, 23, 64, 0x103, 0x104, 0x105, 0x113, 0x1003, 0x2013, 0x4005,
    0x10003, 0x80000003, 0x80000004, 0x80000005, 0x80000013, 0x03000000, 0x13000000, 0x00050000, 0xFFFFFF05,
    0xFFFFFFFF,
];
/// Sizes of a number, sizes next to them, and ones that have one of them in their low bits.
const SIZES: [usize; 16] = [0, 1, 2, 3, 4, 5, 6, 7, 8, 9, 10, 12, 16, 0x104, 0x108, 0x204];
const LONG_SIZES: [usize; 3] = [0x10004, 0x10008, 0x20004];

/// Numbers at the ends of their kind, and one whose bytes tell their order.
const SIGNED: [i32; 8] = [i32::MIN, i32::MIN + 1, -2, -1, 0, 1, i32::MAX, 0x01020304];
const UNSIGNED: [u32; 7] = [0, 1, 0x7FFFFFFF, 0x80000000, 0xFFFFFFFE, u32::MAX, 0x01020304];
/// Floats without their sign: zero, the smallest and the largest subnormal, the smallest normal, 1, the
/// largest, infinity; signalling NaNs with the smallest, some and the largest payload; quiet ones with none,
/// some and the largest.
const SINGLES: [u32; 13] = [
    0, 1, 0x007FFFFF, 0x00800000, 0x3F800000, 0x7F7FFFFF, 0x7F800000, 0x7F800001, 0x7FA12345, 0x7FBFFFFF,
    0x7FC00000, 0x7FC12345, 0x7FFFFFFF,
];
const DOUBLES: [u64; 13] = [
    0,
    1,
    0x000FFFFF_FFFFFFFF,
    0x00100000_00000000,
    0x3FF00000_00000000,
    0x7FEFFFFF_FFFFFFFF,
    0x7FF00000_00000000,
    0x7FF00000_00000001,
    0x7FF41234_56789ABC,
    0x7FF7FFFF_FFFFFFFF,
    0x7FF80000_00000000,
    0x7FF81234_56789ABC,
    0x7FFFFFFF_FFFFFFFF,
];
/// The bits of a sign.
const SINGLE_SIGNS: [u32; 2] = [0, 1 << 31];
const DOUBLE_SIGNS: [u64; 2] = [0, 1 << 63];

/// The names of a value's steps.
const STEPS: [&str; 21] = names(&VALUE);
/// EB in the SecurityHeader's Flags.
const EB: u16 = 0x20;
/// The C-16 steps that a case breaks beside others.
const TOGETHER: [&[&str]; 7] =
    [&["62"], &["60"], &["61"], &["62", "60"], &["62", "61"], &["60", "61"], &["62", "60", "61"]];
/// One section in so many is as long as may be, which takes long.
const FAR: usize = 5_000;
/// The most bytes of the others, and of those whose size has a number's in its low bits.
const MOST: usize = 20_000;
const LONG: usize = 200_000;

/// The numbers and patterns that a program may take for others, of each kind.
pub fn special_values() -> Vec<Value> {
    let singles = SINGLE_SIGNS.into_iter().flat_map(|sign| SINGLES.map(|bits| f32::from_bits(sign | bits)));
    let doubles = DOUBLE_SIGNS.into_iter().flat_map(|sign| DOUBLES.map(|bits| f64::from_bits(sign | bits)));
    let integers = SIGNED.map(Value::I32).into_iter().chain(UNSIGNED.map(Value::U32));
    integers.chain(singles.map(Value::F32)).chain(doubles.map(Value::F64)).collect()
}

/// A value of any kind: a special one, a NaN with any payload, or any.
pub fn value(r: &mut Random) -> Value {
    match (r.below(4), r.pick(&BODY_TYPES)) {
        (0, body_type) => Value::new(body_type, r.word()).expect("a number's type"),
        (1, F32) => Value::F32(f32::from_bits(r.word() as u32 | 0x7F80_0000)),
        (1, F64) => Value::F64(f64::from_bits(r.word() | 0x7FF0_0000_0000_0000)),
        (_, I32) => Value::I32(r.pick(&SIGNED)),
        (_, U32) => Value::U32(r.pick(&UNSIGNED)),
        (_, F32) => Value::F32(f32::from_bits(r.pick(&SINGLES) | r.pick(&SINGLE_SIGNS))),
        _ => Value::F64(f64::from_bits(r.pick(&DOUBLES) | r.pick(&DOUBLE_SIGNS))),
    }
}

/// A value, and the bytes to lend for it: 0 to 10, or more.
pub fn value_and_room(r: &mut Random) -> (Value, usize) {
    let room = match r.below(8) {
        0 => 11 + r.below(60),
        _ => r.below(11),
    };
    (value(r), room)
}

/// A BodyType that is none of the four, but for one in sixteen.
fn other_type(r: &mut Random) -> u32 {
    match r.below(16) {
        0 => r.pick(&BODY_TYPES),
        1 => r.word() as u32,
        2..=4 => r.pick(&BODY_TYPES) ^ (1 << r.below(32)),
        5..=7 => r.pick(&BODY_TYPES) | (r.word() as u32) << 8,
        _ => r.pick(&OTHER_TYPES),
    }
}

/// Another number of bytes than `size`, most often: next to it, or of another number.
fn other_size(r: &mut Random, size: usize) -> usize {
    match r.below(16) {
        0 => r.pick(&LONG_SIZES),
        1..=4 => r.pick(&[4, 8]),
        5..=8 => size + 1 - 2 * r.below(2),
        _ => r.pick(&SIZES),
    }
}

/// A BodyType and a body that come without their section: a number's, or with another type or length.
pub fn typed_body(r: &mut Random) -> (u32, Vec<u8>) {
    let number = value(r);
    let mut body_type = number.body_type();
    let mut length = number.size();
    match r.below(8) {
        0 => body_type = r.pick(&BODY_TYPES),
        1 => body_type = other_type(r),
        2 => length = other_size(r, length),
        3 => (body_type, length) = (other_type(r), other_size(r, length)),
        _ => {}
    }
    let mut body = r.bytes(length);
    put(&mut body, 0, &number.bits().to_le_bytes());
    (body_type, body)
}

/// A section whose body is a number, or one that breaks chosen steps, C-16's in every combination and beside
/// those of the section; then perhaps cut, flipped or extended. AllocationBodySize is MessageSize or another.
pub fn value_case(r: &mut Random) -> Case {
    let number = value(r);
    let (draft, body_type) = drawn(r, number);
    let mut bytes = draft.lay_out(r);
    let extension = draft.before_extension();
    let fixed = extension - 2 * usize::from(draft.label) - PROPERTIES_FIXED;
    put(&mut bytes, fixed + 24, &body_type.to_le_bytes());
    let body = number.bits().to_le_bytes();
    put(&mut bytes, extension + draft.extension as usize, &body[..body.len().min(draft.body as usize)]);
    damage(r, &mut bytes);
    let security_first = if r.once_in(60) { !draft.security_first } else { draft.security_first };
    Case { bytes, security_first }
}

/// The draft of a section with a number, and its BodyType, with steps broken.
fn drawn(r: &mut Random, number: Value) -> (Draft, u32) {
    let (mut draft, mut body_type) = (Draft::valid(r), number.body_type());
    draft.flags &= !EB;
    draft.body = number.size() as u32;
    draft.allocation = allocation(r, draft.body);
    let mut steps = if r.once_in(3) { vec![] } else { r.steps(&STEPS, &[]) };
    if r.once_in(3) {
        steps.extend(r.pick(&TOGETHER));
    }
    for step in steps {
        match step {
            "62" => encrypt(r, &mut draft),
            "60" => body_type = other_type(r),
            "61" => resize(r, &mut draft, number.size()),
            _ => draft.break_step(r, step),
        }
    }
    draft.room = draft.room.min(if LONG_SIZES.contains(&(draft.body as usize)) { LONG } else { MOST });
    if r.once_in(FAR) {
        lengthen(&mut draft);
    }
    (draft, body_type)
}

/// 62; now and then in a SecurityHeader that does not stand first.
fn encrypt(r: &mut Random, draft: &mut Draft) {
    draft.flags |= EB;
    if !r.once_in(16) {
        draft.security_first = true;
    }
}

/// 61 or its boundary, for a number of so many bytes.
fn resize(r: &mut Random, draft: &mut Draft, size: usize) {
    draft.body = other_size(r, size) as u32;
    draft.allocation = allocation(r, draft.body);
}

/// An allocation that P4 passes: the body's size, or a number's, or another.
fn allocation(r: &mut Random, body: u32) -> u32 {
    match r.below(8) {
        0 => LIMIT as u32,
        1 | 2 => body.max(r.pick(&[4, 8])),
        3 => body + 1 + r.below(12) as u32,
        _ => body,
    }
}

/// Takes the extension so far that a section with a number ends at the limit.
fn lengthen(draft: &mut Draft) {
    let before = (draft.before_extension() + draft.body as usize) as u64;
    if before < LIMIT && u64::from(draft.body) <= number_size(F64) {
        draft.extension = (LIMIT - before) as u32;
        draft.room = usize::MAX;
    }
}

/// Puts as much of `part` at `at` as there is room for.
fn put(bytes: &mut [u8], at: usize, part: &[u8]) {
    let place = bytes.get_mut(at..).unwrap_or_default();
    place.iter_mut().zip(part).for_each(|(byte, new)| *byte = *new);
}
