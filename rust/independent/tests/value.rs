//! C-16: bodies of a single number. The papers' words and the special numbers, generated sections against
//! C-16 written down once more, and the wrong versions that they tell from the right one.

use std::collections::BTreeMap;

use independent::generate::{
    special_values, typed_body, value, value_and_room, value_case, Random, BODY_TYPES,
};
use independent::neighbours::{self, List};
use independent::planted::{self, WrongValue, WrongWriting};
use independent::value::{read_value, value_of, write_value, Value};
use independent::{number, read, write_section, Refusal, SectionValues};

/// EB in the SecurityHeader's Flags, and the X bit of the properties Flags that stands where it does.
const EB: u16 = 0x20;
const X: u8 = 0x20;

fn refused(number: u32, place: usize) -> Result<Value, Refusal> {
    Err(Refusal { number, place })
}

/// The section of this BodyType and body, with a label and an extension that leave the body at an odd offset.
fn values(body_type: u32, body: &[u8]) -> SectionValues<'_> {
    SectionValues {
        label: b"f\0\0\0",
        extension: b"abc",
        body_type,
        body,
        allocation_body_size: body.len() as u64,
        ..SectionValues::default()
    }
}

/// The same behind a SecurityHeader with a key.
fn secured(body_type: u32, body: &[u8], flags: u16) -> SectionValues<'_> {
    let security_flags = 0x0080 | flags;
    SectionValues { security_first: true, security_flags, encryption_key: b"key", ..values(body_type, body) }
}

fn written(values: &SectionValues<'_>) -> Vec<u8> {
    let mut out = vec![0; 300];
    let length = write_section(values, &mut out).unwrap();
    out.truncate(length);
    out
}

/// What is read of a section of this BodyType and body; with a SecurityHeader before it or not, and with its
/// parts from elsewhere, it is the same.
fn number_of(body_type: u32, body: &[u8]) -> Result<Value, Refusal> {
    let answer = read_value(&written(&values(body_type, body)), false);
    assert_eq!(read_value(&written(&secured(body_type, body, 0)), true), answer);
    assert_eq!(value_of(body_type, body), answer);
    answer
}

/// Writes a value, which takes these bytes and no others of the output.
fn writes(value: Value, bytes: &[u8]) {
    let size = bytes.len();
    for room in 0..=20 {
        let mut out = vec![0xA5; room];
        let answer = write_value(value, &mut out);
        if room < size {
            assert_eq!(
                answer,
                Err(Refusal { number: number::OUTPUT_SHORT, place: 0 }),
                "{value:?} in {room}"
            );
            assert_eq!(out, vec![0xA5; room], "{value:?} in {room}");
        } else {
            assert_eq!(answer, Ok(size), "{value:?} in {room}");
            assert_eq!(out, [bytes, &vec![0xA5; room - size]].concat(), "{value:?} in {room}");
        }
    }
}

/// "The most negative signed number and -1 belong among the examples."
#[test]
fn examples() {
    let one: [(u32, &[u8], Value); 14] = [
        (3, b"\0\0\0\x80", Value::I32(i32::MIN)),
        (3, b"\xFF\xFF\xFF\xFF", Value::I32(-1)),
        (3, b"\xFE\xFF\xFF\xFF", Value::I32(-2)),
        (3, b"\xFF\xFF\xFF\x7F", Value::I32(i32::MAX)),
        (3, b"\x04\x03\x02\x01", Value::I32(0x01020304)),
        (19, b"\0\0\0\x80", Value::U32(0x80000000)),
        (19, b"\xFF\xFF\xFF\xFF", Value::U32(u32::MAX)),
        (19, b"\x04\x03\x02\x01", Value::U32(0x01020304)),
        (4, b"\0\0\x80\x3F", Value::F32(1.0)),
        (4, b"\0\0\x20\xC1", Value::F32(-10.0)),
        (4, b"\0\0\0\x80", Value::F32(-0.0)),
        (5, b"\0\0\0\0\0\0\xF0\x3F", Value::F64(1.0)),
        (5, b"\0\0\0\0\0\0\x24\xC0", Value::F64(-10.0)),
        (5, b"\0\0\0\0\0\0\0\x80", Value::F64(-0.0)),
    ];
    for (body_type, body, value) in one {
        assert_eq!(number_of(body_type, body), Ok(value));
        assert_eq!((value.body_type(), value.size()), (body_type, body.len()));
        writes(value, body);
    }
}

/// "A float is its bit pattern": NaNs of either kind and sign with their payloads, both zeros, subnormals.
#[test]
fn every_pattern_survives() {
    for value in special_values() {
        let body = &value.bits().to_le_bytes()[..value.size()];
        assert_eq!(number_of(value.body_type(), body), Ok(value));
        writes(value, body);
    }
    for bits in [0x7F800001_u32, 0xFF800001, 0x7FBFFFFF, 0x7FC00000, 0xFFC00001, 0x80000000, 1] {
        let Ok(Value::F32(float)) = number_of(4, &bits.to_le_bytes()) else { panic!("{bits:x}") };
        assert_eq!(float.to_bits(), bits);
    }
    for bits in [0x7FF0000000000001_u64, 0xFFF0000000000001, 0x7FF7FFFFFFFFFFFF, 0xFFF8000000000000, 1 << 63]
    {
        let Ok(Value::F64(float)) = number_of(5, &bits.to_le_bytes()) else { panic!("{bits:x}") };
        assert_eq!(float.to_bits(), bits);
    }
}

#[test]
fn values_are_the_same_by_kind_and_bits() {
    let special = special_values();
    for (at, one) in special.iter().enumerate() {
        for (other_at, other) in special.iter().enumerate() {
            assert_eq!(one == other, at == other_at, "{one:?} {other:?}");
        }
        assert_eq!(Value::new(one.body_type(), one.bits()), Some(*one));
    }
    assert_eq!(format!("{:?}", Value::F32(f32::from_bits(0x7F800001))), "F32(0x7f800001)");
    assert_eq!(format!("{:?}", Value::F64(-0.0)), "F64(0x8000000000000000)");
    assert_eq!(format!("{:?} {:?}", Value::I32(-1), Value::U32(1)), "I32(-1) U32(1)");
}

/// Every type of 16 bits, and ones that have a number's type in their low bits.
#[test]
fn other_types() {
    let high = [1_u32 << 8, 1 << 16, 1 << 31, 0xFFFFFF00].map(|bits| BODY_TYPES.map(|low| bits | low));
    let types = (0..=0xFFFF).chain(high.concat()).chain(BODY_TYPES.map(u32::swap_bytes));
    for body_type in types.filter(|body_type| ![3, 19, 4, 5].contains(body_type)) {
        assert_eq!(value_of(body_type, &[0; 4]), refused(60, 0));
        assert_eq!(value_of(body_type, &[0; 8]), refused(60, 0));
        assert_eq!(Value::new(body_type, 0), None);
    }
    for body_type in [0, 2, 6, 18, 20, 259, 0x80000003] {
        assert_eq!(number_of(body_type, &[0; 4]), refused(60, 0));
    }
}

/// "61 MessageSize is not 4, or not 8 for type 5."
#[test]
fn sizes() {
    for body_type in BODY_TYPES {
        let size = if body_type == 5 { 8 } else { 4 };
        for length in (0..=20).filter(|length| *length != size) {
            assert_eq!(
                number_of(body_type, &vec![1; length]),
                refused(61, 0),
                "type {body_type}, {length} bytes"
            );
        }
        for length in [256 + size, 65_536 + size] {
            assert_eq!(value_of(body_type, &vec![1; length]), refused(61, 0));
        }
    }
}

/// "MessageSize decides, not the allocation"; bytes behind the section are not read.
#[test]
fn allocations_and_bytes_behind() {
    let behind = |values: &SectionValues<'_>, allocation| {
        let section = written(&SectionValues { allocation_body_size: allocation, ..*values });
        read_value(&[&section[..], &[0xFF; 9]].concat(), false)
    };
    for allocation in [4, 5, 8, 4_194_304] {
        assert_eq!(behind(&values(3, b"\x07\0\0\0"), allocation), Ok(Value::I32(7)));
    }
    for allocation in [3, 4, 8] {
        assert_eq!(behind(&values(19, b"abc"), allocation), refused(61, 0));
    }
    for allocation in [4, 8] {
        assert_eq!(behind(&values(5, b"four"), allocation), refused(61, 0));
    }
    assert_eq!(behind(&values(5, b"\0\0\0\0\0\0\0\x40"), 4_000), Ok(Value::F64(2.0)));
}

/// "In this order 62 EB is set, 60 other type, 61": each beside the others.
#[test]
fn the_order() {
    for (flags, body_type, body, wanted) in [
        (EB, 3, &b"four"[..], 62),
        (EB, 8, b"four", 62),
        (EB, 3, b"three", 62),
        (EB, 8, b"three", 62),
        (0, 8, b"four", 60),
        (0, 8, b"three", 60),
        (0, 5, b"four", 61),
        (0, 3, b"eight by", 61),
    ] {
        let section = written(&secured(body_type, body, flags));
        assert_eq!(read_value(&section, true), refused(wanted, 0), "{flags:x} {body_type} {body:?}");
    }
}

/// "Without a SecurityHeader EB is not set", whatever the bit in its place is; with one, EB alone counts.
#[test]
fn eb() {
    let mut section = written(&values(3, b"\x01\0\0\0"));
    section[0] |= X;
    assert_eq!(read_value(&section, false), Ok(Value::I32(1)));
    let keyed = secured(3, b"\x01\0\0\0", 0);
    for (flags, wanted) in [(0xF0C0, Ok(Value::I32(1))), (0x00A0, refused(62, 0)), (0xF0E0, refused(62, 0))] {
        let mut section = written(&keyed);
        section[..2].copy_from_slice(&u16::to_le_bytes(flags));
        assert_eq!(read_value(&section, true), wanted, "{flags:x}");
    }
    // without a key too, and whatever the verdict on decryption
    let certified = SectionValues { encryption_key: b"", sender_cert: b"c", ..secured(3, b"\x01\0\0\0", EB) };
    let allowed = SectionValues { privacy_level: 3, encryption_algorithm: 0x6602, ..certified };
    for values in [certified, allowed] {
        assert_eq!(read_value(&written(&values), true), refused(62, 0));
    }
}

/// "The section's" come first, at C-17's places, whatever C-16's steps would say.
#[test]
fn the_sections_refusals_come_first() {
    let whole = written(&secured(8, b"three", EB));
    let header = 16 + 4;
    for (at, byte, number, place) in [
        (0, 0xA3, 2, 0),
        (0, 0xB0, 3, 0),
        (0, 0x20, 4, 0),
        (10, 1, 5, 8),
        (0, 0xA1, 6, 2),
        (12, 2, 7, 0),
        (header + 1, 251, 9, header + 1),
        (header + 2, 3, 10, header + 2),
        (header + 36, 1, 11, header + 36),
        (header + 55, 1, 8, header),
        (header + 52, 100, 1, header),
        (header + 58, 1, 12, header + 58),
    ] {
        let mut section = whole.clone();
        section[at] = byte;
        assert_eq!(read_value(&section, true), refused(number, place), "byte {at}");
    }
    for length in 0..whole.len() {
        let place = if length < header { 0 } else { header };
        assert_eq!(read_value(&whole[..length], true), refused(1, place), "{length} bytes");
    }
    assert_eq!(read_value(&whole, true), refused(62, 0));
}

/// C-16 once more, by the section that was read.
fn plainly(input: &[u8], security_first: bool) -> Result<Value, Refusal> {
    let section = read(input, security_first)?;
    let properties = section.summary.properties;
    let fields = (properties.body_type, properties.message_size);
    if section.summary.security.is_some_and(|security| security.flags.bits() & EB != 0) {
        return refused(62, 0);
    }
    match (fields, section.body) {
        ((3, 4), &[a, b, c, d]) => Ok(Value::I32(i32::from_le_bytes([a, b, c, d]))),
        ((19, 4), &[a, b, c, d]) => Ok(Value::U32(u32::from_le_bytes([a, b, c, d]))),
        ((4, 4), &[a, b, c, d]) => Ok(Value::F32(f32::from_le_bytes([a, b, c, d]))),
        ((5, 8), &[a, b, c, d, e, f, g, h]) => Ok(Value::F64(f64::from_le_bytes([a, b, c, d, e, f, g, h]))),
        ((3 | 19 | 4 | 5, _), _) => refused(61, 0),
        _ => refused(60, 0),
    }
}

/// "What is read writes back the same bytes."
#[test]
fn generated_sections() {
    let mut r = Random::new(61);
    for _ in 0..50_000 {
        let case = value_case(&mut r);
        let (input, first) = (&case.bytes[..], case.security_first);
        let answer = read_value(input, first);
        assert_eq!(answer, plainly(input, first));
        if let Ok(value) = answer {
            let section = read(input, first).unwrap();
            let mut out = [0xA5; 12];
            assert_eq!(write_value(value, &mut out), Ok(section.body.len()));
            assert_eq!(out[..section.body.len()], *section.body);
            assert_eq!(value_of(section.summary.properties.body_type, section.body), answer);
        }
    }
}

/// What is written reads back, as the body of a section of the value's BodyType.
#[test]
fn generated_values() {
    let mut r = Random::new(62);
    for _ in 0..20_000 {
        let value = value(&mut r);
        let mut out = [0; 8];
        let length = write_value(value, &mut out).unwrap();
        assert_eq!(number_of(value.body_type(), &out[..length]), Ok(value));
    }
}

/// In how many of `cases` a wrong version gives another answer.
fn found<C>(cases: &[C], differs: impl Fn(&C) -> bool) -> usize {
    cases.iter().filter(|case| differs(case)).count()
}

#[test]
fn wrong_readers() {
    let mut r = Random::new(63);
    let sections: Vec<_> = (0..8_000).map(|_| value_case(&mut r)).collect();
    let bodies: Vec<_> = (0..8_000).map(|_| typed_body(&mut r)).collect();
    for wrong in WrongValue::all() {
        let found = found(&sections, |case| {
            let (input, first) = (&case.bytes[..], case.security_first);
            read_value(input, first) != planted::read_value(wrong, input, first)
        });
        println!("{wrong:?}: {found}");
        assert!(found > 0, "{wrong:?}");
    }
    for wrong in WrongValue::of_body() {
        let found = found(&bodies, |(body_type, body)| {
            value_of(*body_type, body) != planted::value_of(wrong, *body_type, body)
        });
        println!("{wrong:?} without a section: {found}");
        assert!(found > 0, "{wrong:?}");
    }
}

#[test]
fn wrong_writers() {
    let mut r = Random::new(64);
    let values: Vec<_> = (0..8_000).map(|_| value_and_room(&mut r)).collect();
    for wrong in WrongWriting::all() {
        let found = found(&values, |&(value, room)| {
            let (mut a, mut b) = (vec![0xA5; room], vec![0xA5; room]);
            write_value(value, &mut a) != planted::write_value(wrong, value, &mut b) || a != b
        });
        println!("{wrong:?}: {found}");
        assert!(found > 0, "{wrong:?}");
    }
}

/// Each refusal comes up among the sections, and each two neighbouring steps broken together; each special
/// value in a section and in a body; and each kind in each room.
#[test]
fn generated_cases() {
    let mut r = Random::new(65);
    let [mut read, mut bodies, mut rooms] = [(); 3].map(|()| BTreeMap::new());
    let count = |counts: &mut BTreeMap<String, usize>, what: String| *counts.entry(what).or_default() += 1;
    for _ in 0..100_000 {
        let case = value_case(&mut r);
        let (input, first) = (&case.bytes[..], case.security_first);
        count(&mut read, shown(read_value(input, first)));
        if let Some(both) = neighbours::value(input, first) {
            count(&mut read, both.to_string());
        }
        let (body_type, body) = typed_body(&mut r);
        count(&mut bodies, shown(value_of(body_type, &body)));
        if let Some(both) = neighbours::body(body_type, &body) {
            count(&mut bodies, both.to_string());
        }
        let (value, room) = value_and_room(&mut r);
        count(&mut rooms, format!("{} in {}", value.body_type(), room.min(11)));
    }
    let specials = || special_values().into_iter().map(|value| shown(Ok(value)));
    let pairs = |list: List| list.neighbours().into_iter().map(|pair| pair.to_string());
    let refusals = (1..=12).chain(60..=62).map(|number| number.to_string());
    let in_sections = specials().chain(refusals).chain(pairs(List::Value)).map(|what| (what, &read));
    let in_bodies = specials().chain(["60".into(), "61".into()]).chain(pairs(List::Body));
    for (what, counts) in in_sections.chain(in_bodies.map(|what| (what, &bodies))) {
        let cases = counts.get(&what).copied().unwrap_or_default();
        println!("{what}: {cases}");
        assert!(cases >= 50, "{what}");
    }
    assert!(rooms.len() == 4 * 12 && rooms.values().all(|&values| values >= 1_000), "{rooms:?}");
}

/// A value, or a refusal's number.
fn shown(answer: Result<Value, Refusal>) -> String {
    answer.map_or_else(|refusal| refusal.number.to_string(), |value| format!("{value:?}"))
}
