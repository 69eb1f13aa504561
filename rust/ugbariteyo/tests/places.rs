//! Where reading, reading in portions, copying and the reading of records and of a body's number refuse, and the fields
//! that lie there. (The section writer's places are among the examples.)

use ugbariteyo::{
    field_at, read, read_day, read_value, records, support_copy, text_bytes, DaySlot, Field, FieldAt, First,
    Kind, Portions, Refusal, LIMIT,
};

use First::{PropertiesHeader, SecurityHeader};

#[path = "given/record.rs"]
mod given_record;
#[path = "given/section.rs"]
mod given_section;

use given_record::record;
use given_section::{full_section, properties, refused, security, with_output, FULL_LENGTH};

/// Where the MessagePropertiesHeader of the full section begins.
const P: usize = 56;

fn words(at: Option<FieldAt>) -> String {
    at.map_or("no field".into(), |at| at.to_string())
}

/// By every reader, the second record's of a file too: refused with this, about what is called so.
#[track_caller]
fn refused_at(input: &[u8], first: First, kind: Kind, place: usize, called: &str) {
    let refusal = refused(kind, place);
    assert_eq!(read(input, first), Err(refusal));
    assert_eq!(read_value(input, first), Err(refusal));
    let mut portions = Portions::new(first);
    assert!(input.chunks(3).all(|bytes| portions.portion(bytes).is_ok()));
    assert_eq!(portions.finish(), Err(refusal));
    assert_eq!(with_output(FULL_LENGTH, |out| support_copy(input, first, out)), Err(refusal));
    let day = [record(0, &[0; 56]), record(first as u8, input)].concat();
    let second = records(&day).nth(1).unwrap().unwrap();
    assert_eq!(second.answer, Err(refusal));
    let mut table = [DaySlot::default(); 2];
    assert_eq!((read_day(&day, &mut table), table[1].answer()), (Ok(2), Some(Err(refusal))));
    assert_eq!(words(refusal.field(second.section, second.first)), called);
}

#[test]
fn refusals_by_the_security_header() {
    let (flags, size, header) = ("SecurityHeader Flags", "SenderIdSize", "SecurityHeader");
    let no_sizes_nor_dp = [0x21, 0, 0, 0, 0, 0, 0, 0, 0, 0, 0, 0, 0, 0, 0, 0];
    // what is put into the full section, and where
    let cases: [(usize, &[u8], Kind, usize, &str); 18] = [
        (0, &[0xA3], Kind::SenderKind, 0, flags),
        (0, &[0xB1], Kind::AuOrAs, 0, flags),
        (1, &[0xF1], Kind::AuOrAs, 0, flags),
        (0, &[0x21], Kind::EmptyOrDpClear, 0, flags),
        (0, &no_sizes_nor_dp, Kind::EmptyOrDpClear, 0, flags),
        (2, &[0; 14], Kind::EmptyOrDpClear, 2, size),
        (8, &[0, 0, 1], Kind::CertificateSize, 8, "SenderCertSize"),
        (2, &[13], Kind::Identity, 2, size),
        (16, &[2], Kind::Identity, 2, size),
        (17, &[2], Kind::Identity, 2, size),
        (0, &[0xE1], Kind::Provider, 0, header),
        (12, &[11], Kind::Provider, 0, header),
        (14, &[0x40], Kind::AboveTheLimit, 0, header),
        (48, &[0, 0], Kind::Provider, 48, "provider name unit 0"),
        (50, &[0, 0], Kind::Provider, 50, "provider name unit 1"),
        (52, &[0, 1], Kind::Provider, 52, "provider name unit 2"),
        (48, &[0, 0, 0, 0, 1, 0], Kind::Provider, 48, "provider name unit 0"),
        (50, &[0, 0, 1, 0], Kind::Provider, 50, "provider name unit 1"),
    ];
    for (at, put, kind, place, called) in cases {
        let mut bytes = full_section();
        bytes[at..at + put.len()].copy_from_slice(put);
        refused_at(&bytes, SecurityHeader, kind, place, called);
    }
}

#[test]
fn refusals_by_the_properties_header() {
    let allocation = "AllocationBodySize";
    // what is put into it, and where; the places count from its start
    let cases: [(usize, &[u8], Kind, usize, &str); 10] = [
        (1, &[251], Kind::LabelLength, 1, "LabelLength"),
        (2, &[8, 0x80], Kind::Class, 2, "MessageClass"),
        (36, &[0], Kind::Allocation, 36, allocation),
        (38, &[0x41], Kind::Allocation, 36, allocation),
        (32, &[10], Kind::Allocation, 36, allocation),
        (54, &[0x40], Kind::AboveTheLimit, 0, "MessagePropertiesHeader"),
        (53, &[1], Kind::InputShort, 0, "MessagePropertiesHeader"),
        (56, &[0, 0], Kind::Label, 56, "label unit 0"),
        (58, &[0, 1], Kind::Label, 58, "label unit 1"),
        (56, &[0, 0, 1, 0], Kind::Label, 56, "label unit 0"),
    ];
    for (at, put, kind, place, called) in cases {
        let mut bytes = full_section();
        bytes[P + at..][..put.len()].copy_from_slice(put);
        refused_at(&bytes, SecurityHeader, kind, P + place, called);
        refused_at(&bytes[P..], PropertiesHeader, kind, place, called);
    }
}

#[test]
fn short_inputs() {
    let bytes = full_section();
    for end in 0..FULL_LENGTH {
        let (place, header) = if end < P { (0, "SecurityHeader") } else { (P, "MessagePropertiesHeader") };
        refused_at(&bytes[..end], SecurityHeader, Kind::InputShort, place, header);
    }
    for end in P..FULL_LENGTH {
        refused_at(&bytes[P..end], PropertiesHeader, Kind::InputShort, 0, "MessagePropertiesHeader");
    }
}

/// A text of 250 units at `start`: a zero unit before the last, another one behind it, and a last one that is not zero.
fn text_refused(whole: &[u8], first: First, start: usize, kind: Kind, part: &str) {
    const LAST: usize = 249;
    let refused = |zeros: &[usize], last: u8, unit: usize| {
        let mut bytes = whole.to_vec();
        for zero in zeros {
            bytes[start + 2 * zero + 1] = 0;
        }
        bytes[start + 2 * LAST + 1] = last;
        refused_at(&bytes, first, kind, start + 2 * unit, &format!("{part} unit {unit}"));
    };
    refused(&[], 1, LAST);
    for unit in 0..LAST {
        refused(&[unit], 0, unit);
        refused(&[unit, LAST - 1], 0, unit);
        refused(&[unit], 1, unit);
    }
}

#[test]
fn the_first_unit_that_breaks_the_rule() {
    let text = text_bytes(&"\u{100}".repeat(249));
    let label = [properties(250, 0, 0, 0, 0), text.clone()].concat();
    text_refused(&label, PropertiesHeader, 56, Kind::Label, "label");
    let name = [security(0x0080, [0, 0, 1], 0, 504), b"s???type".to_vec(), text, vec![0; 56]].concat();
    text_refused(&name, SecurityHeader, 24, Kind::Provider, "provider name");
}

/// The bytes of each field in `every_field`.
const SECURITY: [(&str, usize); 17] = [
    ("SecurityHeader Flags", 2),
    ("SenderIdSize", 2),
    ("EncryptionKeySize", 2),
    ("SignatureSize", 2),
    ("SenderCertSize", 4),
    ("ProviderInfoSize", 4),
    ("identity", 9),
    ("padding behind the identity", 3),
    ("key", 3),
    ("padding behind the key", 1),
    ("signature", 5),
    ("padding behind the signature", 3),
    ("certificate", 2),
    ("padding behind the certificate", 2),
    ("provider type", 4),
    ("provider name", 6),
    ("padding behind the provider info", 2),
];
const PROPERTIES: [(&str, usize); 16] = [
    ("MessagePropertiesHeader Flags", 1),
    ("LabelLength", 1),
    ("MessageClass", 2),
    ("CorrelationID", 20),
    ("BodyType", 4),
    ("ApplicationTag", 4),
    ("MessageSize", 4),
    ("AllocationBodySize", 4),
    ("PrivacyLevel", 4),
    ("HashAlgorithm", 4),
    ("EncryptionAlgorithm", 4),
    ("ExtensionSize", 4),
    ("label", 6),
    ("extension", 5),
    ("body", 2),
    ("padding at the end", 3),
];

/// A section that has every field and every padding. Its identity is refused.
fn every_field() -> Vec<u8> {
    let mut bytes = security(0x0081, [9, 3, 5], 2, 10);
    bytes.resize(P, 0xFF);
    bytes.extend(properties(3, 0, 5, 2, 2));
    bytes.resize(P + 72, 0xFF);
    bytes
}

#[test]
fn every_byte_has_its_field() {
    let bytes = [&every_field()[..], b"behind"].concat();
    let mut place = 0;
    for (&(text, width), field) in SECURITY.iter().chain(&PROPERTIES).zip(Field::ALL) {
        for offset in 0..width {
            let at = FieldAt { field, offset };
            assert_eq!(field_at(&bytes, SecurityHeader, place), Some(at));
            assert_eq!(field_at(&bytes[..place + 1], SecurityHeader, place), Some(at));
            assert_eq!(field_at(&bytes[..place], SecurityHeader, place), None);
            if place >= P {
                assert_eq!(field_at(&bytes[P..], PropertiesHeader, place - P), Some(at));
            }
            let unit = ["label", "provider name"].contains(&text).then_some(offset / 2);
            let called = unit.map_or(text.into(), |unit| format!("{text} unit {unit}"));
            assert_eq!((field.to_string(), at.unit(), at.to_string()), (text.into(), unit, called));
            place += 1;
        }
    }
    assert_eq!(place, every_field().len());
}

#[test]
fn no_field_behind_the_end() {
    let section = every_field();
    let length = section.len();
    let bytes = [&section[..], b"behind"].concat();
    for place in (length..length + 8).chain([LIMIT, 1 << 32, usize::MAX]) {
        assert_eq!(field_at(&bytes, SecurityHeader, place), None);
        assert_eq!(field_at(&section, SecurityHeader, place), None);
        assert_eq!(field_at(&bytes[P..], PropertiesHeader, place), None);
        assert_eq!(field_at(&[], SecurityHeader, place), None);
    }
    assert_eq!(field_at(&bytes[P..], PropertiesHeader, length - P), None);
    assert_eq!((field_at(&[], SecurityHeader, 0), field_at(&[], PropertiesHeader, 0)), (None, None));
}

/// The number says whether the header is meant; the place, which one.
#[test]
fn headers_and_their_fields() {
    let bytes = every_field();
    let field = |first, number, place| words(Refusal { number, place }.field(&bytes, first));
    for number in [1, 8] {
        assert_eq!(field(SecurityHeader, number, 0), "SecurityHeader");
        assert_eq!(field(SecurityHeader, number, P), "MessagePropertiesHeader");
        assert_eq!(field(PropertiesHeader, number, 0), "MessagePropertiesHeader");
    }
    assert_eq!(field(SecurityHeader, 7, 0), "SecurityHeader");
    assert_eq!(field(SecurityHeader, 7, 50), "provider name unit 1");
    for number in [0, 2, 3, 4, 5, 6, 9, 10, 11, 12] {
        assert_eq!(field(SecurityHeader, number, 0), "SecurityHeader Flags");
        assert_eq!(field(SecurityHeader, number, P), "MessagePropertiesHeader Flags");
        assert_eq!(field(PropertiesHeader, number, 1), "LabelLength");
    }
    for number in [13, 14, 15, 16, 20, 33] {
        assert_eq!(field(SecurityHeader, number, 0), "no field");
        assert_eq!(field(PropertiesHeader, number, 1), "no field");
    }
    for number in [60, 61, 62] {
        assert_eq!(field(SecurityHeader, number, 0), "no field");
        assert_eq!(field(PropertiesHeader, number, 1), "no field");
    }
    let numbers: Vec<u32> = Field::ALL.iter().map(|&field| field as u32).collect();
    assert_eq!(numbers, (1..=35).collect::<Vec<_>>());
}

/// Whatever bit is wrong: a refusal is about its own field, from that field's or unit's first byte on.
#[test]
fn every_refusal_is_about_its_own_field() {
    let bytes = full_section();
    for (at, bit) in (0..bytes.len()).flat_map(|at| (0..8).map(move |bit| (at, bit))) {
        let mut other = bytes.clone();
        other[at] ^= 1 << bit;
        let Err(refusal) = read(&other, SecurityHeader) else { continue };
        let found = refusal.field(&other, SecurityHeader).unwrap();
        let own: &[Field] = match refusal.kind().unwrap() {
            Kind::InputShort | Kind::AboveTheLimit => {
                &[Field::SecurityHeader, Field::MessagePropertiesHeader]
            }
            Kind::SenderKind | Kind::AuOrAs => &[Field::SecurityFlags],
            Kind::EmptyOrDpClear => &[Field::SecurityFlags, Field::SenderIdSize],
            Kind::CertificateSize => &[Field::SenderCertSize],
            Kind::Identity => &[Field::SenderIdSize],
            Kind::Provider => &[Field::SecurityHeader, Field::ProviderName],
            Kind::LabelLength => &[Field::LabelLength],
            Kind::Class => &[Field::MessageClass],
            Kind::Allocation => &[Field::AllocationBodySize],
            Kind::Label => &[Field::Label],
            other => panic!("reading refuses with {other}"),
        };
        assert!(own.contains(&found.field), "byte {at}, bit {bit}: {refusal} ({found})");
        assert_eq!(found.offset, found.unit().map_or(0, |unit| 2 * unit));
    }
}
