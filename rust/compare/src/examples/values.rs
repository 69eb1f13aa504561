//! C-16's words and its settled readings, sentence by sentence.

use super::{refused, Input};
use crate::lend::lend;
use crate::report::{agree, Check};
use crate::side::{BodyValue, Side};

/// Numbers of each kind as they lie in a body: "the most negative signed number and -1", the same bytes unsigned, both
/// zeros, NaNs quiet and signalling with their payloads, the smallest subnormals.
const NUMBERS: [(u8, &[u8], BodyValue); 17] = [
    (3, b"\0\0\0\x80", BodyValue::I32(i32::MIN)),
    (3, b"\xFF\xFF\xFF\xFF", BodyValue::I32(-1)),
    (3, b"\x04\x03\x02\x01", BodyValue::I32(0x0102_0304)),
    (19, b"\0\0\0\x80", BodyValue::U32(0x8000_0000)),
    (19, b"\xFF\xFF\xFF\xFF", BodyValue::U32(0xFFFF_FFFF)),
    (4, b"\0\0\xC0\xBF", BodyValue::F32(-1.5)),
    (4, b"\0\0\0\x80", BodyValue::F32(-0.0)),
    (4, b"\x01\0\0\0", BodyValue::F32(f32::from_bits(1))),
    (4, b"\0\0\xC0\xFF", BodyValue::F32(f32::from_bits(0xFFC0_0000))),
    (4, b"\x01\0\x80\x7F", BodyValue::F32(f32::from_bits(0x7F80_0001))),
    (4, b"\x45\x23\xA1\xFF", BodyValue::F32(f32::from_bits(0xFFA1_2345))),
    (5, b"\0\0\0\0\0\0\xF8\xBF", BodyValue::F64(-1.5)),
    (5, b"\0\0\0\0\0\0\0\x80", BodyValue::F64(-0.0)),
    (5, b"\x08\x07\x06\x05\x04\x03\x02\x01", BodyValue::F64(f64::from_bits(0x0102_0304_0506_0708))),
    (5, b"\0\0\0\0\0\0\xF8\x7F", BodyValue::F64(f64::from_bits(0x7FF8_0000_0000_0000))),
    (5, b"\x01\0\0\0\0\0\xF0\xFF", BodyValue::F64(f64::from_bits(0xFFF0_0000_0000_0001))),
    (5, b"\xBC\x9A\x78\x56\x34\x12\xF4\x7F", BodyValue::F64(f64::from_bits(0x7FF4_1234_5678_9ABC))),
];

/// A SecurityHeader with a key; its length.
fn keyed(flags: u16) -> Input {
    Input::security(flags, [0, 4, 0], 0, 0, b"akey")
}
const KEYED: usize = 20;

/// The same with a section of this BodyType behind it.
fn typed(head: Input, body_type: u8, body: &[u8]) -> Vec<u8> {
    let at = head.0.len();
    let padding = &b"???"[..body.len().wrapping_neg() % 4];
    let Input(mut bytes) = head.properties(0, 0, 0, body.len() as u32, &[body, padding].concat());
    bytes[at + 24] = body_type;
    bytes
}

/// "What is read writes back the same bytes", of a section with a SecurityHeader and of one without; bytes behind it
/// are not read.
pub fn numbers(side: &dyn Side) -> Check {
    for (body_type, body, value) in NUMBERS {
        for (head, security_first) in [(Input(vec![]), false), (keyed(0x0080), true)] {
            let section = [typed(head, body_type, body), vec![0xFF; 9]].concat();
            agree("the number", &side.read_value(&section, security_first), &Ok(value))?;
            agree("of the section", &side.value_of_section(&section, security_first), &Ok(value))?;
        }
        agree("the number of a body", &side.value_of(body_type.into(), body), &Ok(value))?;
        agree("its BodyType", &side.told(value).body_type, &body_type.into())?;
        for room in 0..=2 * body.len() {
            let wanted = if room < body.len() { refused(13, 0) } else { Ok(body) };
            lend(room, |out| side.write_value(value, out)).is("the number written", &wanted)?;
        }
    }
    Ok(())
}

/// "The section's, then in this order 62 .., 60 .., 61 ..": with EB or without, another type or not, another size or
/// not; then behind each refusal of the section's own fields.
pub fn refusals(side: &dyn Side) -> Check {
    for (flags, body_type, body, number) in [
        (0x00A0, 3, &b"four"[..], 62),
        (0x00A0, 6, b"four", 62),
        (0x00A0, 5, b"four", 62),
        (0x00A0, 6, b"three", 62),
        (0x0080, 6, b"four", 60),
        (0x0080, 6, b"three", 60),
        (0x0080, 5, b"four", 61),
        (0x0080, 4, b"eight by", 61),
        (0x0080, 19, b"", 61),
    ] {
        let section = typed(keyed(flags), body_type, body);
        agree("62, 60 and 61", &side.read_value(&section, true), &refused(number, 0))?;
        agree("of the section", &side.value_of_section(&section, true), &refused(number, 0))?;
    }
    for (at, byte, number, place) in [
        (0, 0xA3, 2, 0),
        (KEYED + 1, 251, 9, KEYED + 1),
        (KEYED + 2, 3, 10, KEYED + 2),
        (KEYED + 36, 0, 11, KEYED + 36),
        (KEYED + 52, 5, 1, KEYED),
    ] {
        let mut section = typed(keyed(0x00A0), 6, b"five!");
        section[at] = byte;
        agree("the section's refusal", &side.read_value(&section, true), &refused(number, place))?;
    }
    Ok(())
}

/// "MessageSize decides, not the allocation"; "numbers wider than their field are compared whole, never cut"; without a
/// SecurityHeader EB is not set, whatever stands in its place.
pub fn readings(side: &dyn Side) -> Check {
    let reads = |changes: &[(usize, u8)], body: &[u8], wanted| {
        let mut section = typed(Input(vec![]), 3, body);
        changes.iter().for_each(|&(at, byte)| section[at] = byte);
        agree("the number", &side.read_value(&section, false), &wanted)
    };
    let seven = Ok(BodyValue::I32(7));
    reads(&[(36, 8)], b"\x07\0\0\0", seven)?;
    reads(&[(36, 0), (38, 0x40)], b"\x07\0\0\0", seven)?;
    reads(&[(36, 4)], b"\x07\0\0", refused(61, 0))?;
    reads(&[(0, 0x20)], b"\x07\0\0\0", seven)?;
    for high in [25, 26, 27] {
        reads(&[(high, 1)], b"\x07\0\0\0", refused(60, 0))?;
    }
    reads(&[(27, 0x80)], b"\x07\0\0\0", refused(60, 0))?;
    for length in [256 + 4, 65_536 + 4] {
        reads(&[], &vec![0; length], refused(61, 0))?;
        agree("a longer body", &side.value_of(3, &vec![0; length]), &refused(61, 0))?;
    }
    Ok(())
}
