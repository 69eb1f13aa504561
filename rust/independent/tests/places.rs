//! C-17: the place of each refusal, and the field or part that a place lies in.

use independent::cause;
use independent::field::{field_of, FieldAt, NAMES};
use independent::generate::{case, place_case, Random};
use independent::{number, read, Refusal, Section, LIMIT};

/// A SecurityHeader's fixed bytes.
fn security(flags: u16, sizes: [u16; 3], certificate: u32, provider: u32) -> Vec<u8> {
    let mut bytes: Vec<u8> = [&[flags], &sizes[..]].concat().iter().flat_map(|n| n.to_le_bytes()).collect();
    bytes.extend([certificate, provider].iter().flat_map(|n| n.to_le_bytes()));
    bytes
}

/// A header of 20 bytes with a key in it.
fn keyed() -> Vec<u8> {
    [security(0x80, [0, 4, 0], 0, 0), b"key!".to_vec()].concat()
}

fn refused(input: &[u8], security_first: bool) -> (u32, usize) {
    let Refusal { number, place } = read(input, security_first).unwrap_err();
    (number, place)
}

/// Letters, but zero units where `zeros` says.
fn text(units: usize, zeros: &[usize]) -> Vec<u8> {
    (0..units).flat_map(|unit| if zeros.contains(&unit) { [0, 0] } else { [b'a', 0] }).collect()
}

#[test]
fn security_fields() {
    let headers = [
        (security(0x83, [0, 1, 0], 0, 0), (2, 0)),
        (security(0x90, [0, 1, 0], 0, 0), (3, 0)),
        (security(0x180, [0, 1, 0], 0, 0), (3, 0)),
        (security(0x80, [0, 0, 0], 0, 0), (4, 2)),
        (security(0x00, [0, 0, 0], 0, 0), (4, 0)),
        (security(0x00, [0, 1, 0], 0, 0), (4, 0)),
        (security(0x80, [0, 1, 0], 65_536, 0), (5, 8)),
        (security(0x81, [9, 1, 0], 0, 0), (6, 2)),
        (security(0x81, [8, 0, 0], 0, 0), (6, 2)),
        (security(0x80, [0, 0, 1], 0, 6), (7, 0)),
        (security(0xC0, [0, 1, 0], 0, 6), (7, 0)),
        (security(0x80, [0, 1, 0], 0, 0xFFFF_FFFE), (8, 0)),
        (security(0x80, [0, 100, 0], 0, 0), (1, 0)),
    ];
    for (header, refusal) in headers {
        assert_eq!(refused(&[header, vec![0; 56]].concat(), true), refusal);
    }
}

#[test]
fn properties_fields() {
    for head in [vec![], keyed()] {
        let p = head.len();
        let refusal = |changes: &[(usize, u8)]| {
            let mut input = [&head[..], &[0; 56]].concat();
            changes.iter().for_each(|&(at, byte)| input[p + at] = byte);
            refused(&input, p != 0)
        };
        assert_eq!(refusal(&[(1, 251), (2, 3)]), (9, p + 1));
        assert_eq!(refusal(&[(2, 3), (32, 1)]), (10, p + 2));
        assert_eq!(refusal(&[(32, 1)]), (11, p + 36));
        assert_eq!(refusal(&[(39, 1)]), (11, p + 36));
        assert_eq!(refusal(&[(55, 1)]), (8, p));
        assert_eq!(refusal(&[(52, 1)]), (1, p));
        assert_eq!(refused(&[&head[..], &[0; 55]].concat(), p != 0), (1, p));
    }
}

/// Every unit of texts of up to 70 units; the first that breaks the rule counts.
#[test]
fn units() {
    for units in 1..=70_usize {
        for unit in 0..units {
            // beside the null, or with a last unit that is not zero
            let zeros = if unit == units - 1 { vec![] } else { vec![unit, units - 2, units - 1] };
            let label = text(units, &zeros);
            for head in [vec![], keyed()] {
                let mut fixed = [0; 56];
                fixed[1] = units as u8;
                let input = [&head[..], &fixed, &label, &[0; 2]].concat();
                let place = head.len() + 56 + 2 * unit;
                assert_eq!(refused(&input, !head.is_empty()), (12, place));
            }
            let info = [b"\0\0\0\0", &label[..]].concat();
            let header = security(0x80, [0, 1, 0], 0, info.len() as u32);
            let input = [&header[..], b"k???", &info, &[0; 58]].concat();
            assert_eq!(refused(&input, true), (7, 24 + 2 * unit));
        }
    }
}

/// A SecurityHeader as long as the limit: the properties' places lie behind it.
#[test]
fn above_the_limit() {
    let limit = LIMIT as usize;
    let mut name = vec![1; limit - 16 - 4 - 4];
    name.splice(limit - 26.., [0, 0]);
    let header = security(0x80, [0, 4, 0], 0, name.len() as u32 + 4);
    let mut input = [&header[..], b"key!type", &name, &[0; 56]].concat();
    assert_eq!(refused(&input, true), (8, limit));
    input[limit + 32] = 1;
    assert_eq!(refused(&input, true), (11, limit + 36));
    input[limit + 2] = 3;
    assert_eq!(refused(&input, true), (10, limit + 2));
    input[limit + 1] = 251;
    assert_eq!(refused(&input, true), (9, limit + 1));
    assert_eq!(refused(&input[..limit + 55], true), (1, limit));
    assert_eq!(field_of(&input, true, 11, limit + 36), FieldAt { field: 25, offset: 0 });
}

/// "The first byte of the field that failed": the number says which, and units lie in their part.
#[test]
fn the_field_of_each_refusal() {
    let mut r = Random::new(51);
    for _ in 0..20_000 {
        let case = place_case(&mut r);
        let Err(Refusal { number, place }) = read(&case.bytes, case.security_first) else { continue };
        let FieldAt { field, offset } = field_of(&case.bytes, case.security_first, number, place);
        let header = if case.security_first && place == 0 { 34 } else { 35 };
        match number {
            number::INPUT_SHORT | number::LIMIT => assert_eq!((field, offset), (header, 0)),
            number::SENDER_KIND | number::AUTHENTICATED => assert_eq!((field, offset), (1, 0)),
            number::EMPTY => assert!((1..=2).contains(&field) && offset == 0),
            number::CERTIFICATE => assert_eq!((field, offset), (5, 0)),
            number::IDENTITY => assert_eq!((field, offset), (2, 0)),
            number::PROVIDER if place == 0 => assert_eq!((field, offset), (34, 0)),
            number::PROVIDER => assert_eq!((field, offset % 2), (16, 0)),
            number::LABEL_LENGTH => assert_eq!((field, offset), (19, 0)),
            number::CLASS => assert_eq!((field, offset), (20, 0)),
            number::ALLOCATION => assert_eq!((field, offset), (25, 0)),
            _ => assert_eq!((number, field, offset % 2), (number::LABEL, 30, 0)),
        }
    }
}

/// A section with every part, refused by S6; the bytes of its fields and parts, by number from 1 on.
fn every_part() -> (Vec<u8>, [usize; 33]) {
    let header = security(0x81, [13, 3, 5], 1, 7);
    let parts = b"thirteen byte???key?signe???c???typenam?";
    let mut fixed = [0; 56];
    (fixed[1], fixed[32], fixed[52]) = (1, 2, 3);
    let lengths =
        [2, 2, 2, 2, 4, 4, 13, 3, 3, 1, 5, 3, 1, 3, 4, 3, 1, 1, 1, 2, 20, 4, 4, 4, 4, 4, 4, 4, 4, 2, 3, 2, 1];
    ([&header[..], parts, &fixed, b"\0\0extbo?"].concat(), lengths)
}

#[test]
fn each_byte_of_each_field() {
    let (section, lengths) = every_part();
    assert_eq!(section.len(), lengths.iter().sum());
    let mut place = 0;
    for (field, length) in (1..).zip(lengths) {
        for offset in 0..length {
            let found = field_of(&section, true, 0, place);
            assert_eq!(found, FieldAt { field, offset }, "{}", NAMES[field as usize]);
            place += 1;
        }
    }
}

#[test]
fn behind_the_section_and_the_input() {
    let (section, _) = every_part();
    let behind = [&section[..], b"behind"].concat();
    let none = FieldAt::default();
    for place in [section.len(), section.len() + 1, behind.len() - 1, behind.len(), usize::MAX] {
        assert_eq!(field_of(&behind, true, 12, place), none);
        assert_eq!(field_of(&section, true, 12, place), none);
    }
    for length in 0..section.len() {
        assert_eq!(field_of(&section[..length], true, 0, length), none);
        let last = length.saturating_sub(1);
        assert_eq!(field_of(&section[..length.max(1)], true, 0, last), field_of(&section, true, 0, last));
    }
}

#[test]
fn headers_as_a_whole() {
    let (section, _) = every_part();
    for (number, place, field) in [(1, 0, 34), (8, 0, 34), (7, 0, 34), (1, 55, 35), (8, usize::MAX, 35)] {
        for input in [&section[..], &[]] {
            assert_eq!(field_of(input, true, number, place), FieldAt { field, offset: 0 });
            assert_eq!(field_of(input, false, number, place), FieldAt { field: 35, offset: 0 });
        }
    }
    assert_eq!(field_of(&section, true, 7, 1), FieldAt { field: 1, offset: 1 });
    assert_eq!(field_of(&section, true, 0, 0), FieldAt { field: 1, offset: 0 });
    assert_eq!(field_of(&section, false, 0, 0), FieldAt { field: 18, offset: 0 });
    assert_eq!(field_of(&[], true, 2, 0), FieldAt::default());
}

/// Sizes whose sum does not fit in 32 bits, and provider info that is shorter than a type.
#[test]
fn fields_of_odd_layouts() {
    let long = [security(0x80, [0, 0, 0], 0xFFFF_FFFF, 0xFFFF_FFFF), vec![0; 100]].concat();
    assert_eq!(field_of(&long, true, 0, 115), FieldAt { field: 13, offset: 99 });
    let short = [security(0x80, [0, 0, 0], 0, 3), vec![0; 60]].concat();
    let named = [16, 18, 19, 20].map(|place| field_of(&short, true, 0, place));
    let wanted = [(15, 0), (15, 2), (17, 0), (18, 0)].map(|(field, offset)| FieldAt { field, offset });
    assert_eq!(named, wanted);
}

/// The parts of an accepted section are named by their numbers, at their first bytes and last ones.
#[test]
fn parts_of_accepted_sections() {
    let mut r = Random::new(52);
    for _ in 0..20_000 {
        let case = case(&mut r);
        let Ok(Section { summary, .. }) = read(&case.bytes, case.security_first) else { continue };
        let p = summary.parts;
        let parts = [p.identity, p.key, p.signature, p.certificate, p.label, p.extension, p.body];
        for (part, field) in parts.into_iter().zip([7, 9, 11, 13, 30, 31, 32]).filter(|(p, _)| p.length != 0)
        {
            for offset in [0, part.length - 1] {
                let found = field_of(&case.bytes, case.security_first, 0, part.start + offset);
                assert_eq!(found, FieldAt { field, offset });
            }
        }
        assert_eq!(cause::reading(&case.bytes, case.security_first), None);
    }
}
