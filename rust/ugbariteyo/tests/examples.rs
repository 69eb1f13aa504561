//! 01's examples 1 to 10, with content that passes S10, S11 and P7; refused calls that leave the output as it
//! stood; and empty slices everywhere.

use ugbariteyo::{
    label_shown, read, read_image, same_summary, summarize, support_copy, support_copy_vec, text_bytes,
    write_image, write_image_parts, write_section, write_section_vec, First, Image, Kind, Part,
    PropertiesFlags, QueueFormat, Refusal, SectionValues, SecurityFlags, Text, Units, Value, LIMIT,
};

use First::{PropertiesHeader, SecurityHeader};

#[path = "given/copy.rs"]
mod given_copy;
#[path = "given/section.rs"]
mod given_section;

use given_copy::full_copy;
use given_section::{full_section, pattern, properties, refused, security, with_output, FULL_LENGTH};

/// A label of so many units, the null included.
fn label(units: usize) -> Vec<u8> {
    text_bytes(&"a".repeat(units - 1))
}

fn part(start: usize, end: usize) -> Part {
    Part { start, length: end - start }
}

#[test]
fn example_1_zero_bytes() {
    let zero = [0; 56];
    let section = read(&zero, PropertiesHeader).unwrap();
    assert_eq!(section.section_length(), 56);
    assert_eq!(section.first(), PropertiesHeader);
    assert!(!section.authentication_fails() && !section.decryption_fails());
    assert_eq!(read(&zero[..55], PropertiesHeader), Err(refused(Kind::InputShort, 0)));
}

#[test]
fn example_2_parts_follow_each_other() {
    let mut bytes = properties(3, 0, 5, 2, 2);
    bytes.extend_from_slice(&label(3));
    bytes.extend_from_slice(b"extenbo???");
    let summary = summarize(&bytes, PropertiesHeader).unwrap();
    assert_eq!(summary.label_part, part(56, 62));
    assert_eq!(summary.extension, part(62, 67));
    assert_eq!(summary.body, part(67, 69));
    assert_eq!(summary.section_length, 72);
    let section = read(&bytes, PropertiesHeader).unwrap();
    assert_eq!(
        (section.label(), section.extension(), section.body()),
        (&label(3)[..], &b"exten"[..], &b"bo"[..])
    );
    for cut in 69..72 {
        assert_eq!(read(&bytes[..cut], PropertiesHeader), Err(refused(Kind::InputShort, 0)));
    }
}

#[test]
fn example_3_longest_label() {
    let mut bytes = properties(250, 0, 0, 0, 0);
    bytes.extend_from_slice(&label(250));
    let section = read(&bytes, PropertiesHeader).unwrap();
    assert_eq!(section.section_length(), 556);
    assert_eq!(section.label_length(), Units(250));
    assert_eq!(section.label().len(), section.label_length().bytes());
    assert_eq!(section.label_text().to_string(), "a".repeat(249));
    for class in [0, 0x8008] {
        assert_eq!(
            read(&properties(251, class, 0, 0, 0), PropertiesHeader),
            Err(refused(Kind::LabelLength, 1))
        );
    }
}

#[test]
fn example_4_label_of_one_unit() {
    let mut bytes = properties(1, 0, 0, 0, 0);
    bytes.extend_from_slice(&[0; 4]);
    assert_eq!(read(&bytes, PropertiesHeader).unwrap().section_length(), 60);
    assert_eq!(label_shown(&bytes, PropertiesHeader, b"none"), [0, 0]);
    bytes[57] = 1;
    assert_eq!(read(&bytes, PropertiesHeader), Err(refused(Kind::Label, 56)));
    assert_eq!(label_shown(&bytes, PropertiesHeader, b"none"), b"none");
    assert_eq!(label_shown(&[0; 56], PropertiesHeader, b"none"), b"none");
}

#[test]
fn example_5_classes() {
    let answer = |class| read(&properties(0, class, 0, 0, 0), PropertiesHeader).map(|s| s.message_class());
    assert_eq!(answer(0x8008), Err(refused(Kind::Class, 2)));
    assert_eq!(answer(0x8009), Ok(0x8009));
    assert_eq!((0..=u16::MAX).filter(|&class| answer(class) == Ok(class)).count(), 19);
}

#[test]
fn example_6_at_the_limit() {
    let mut bytes = properties(0, 0, 0, 4_194_248, 4_194_248);
    assert_eq!(read(&bytes, PropertiesHeader), Err(refused(Kind::InputShort, 0)));
    bytes.resize(LIMIT, 0xAA);
    let section = read(&bytes, PropertiesHeader).unwrap();
    assert_eq!((section.section_length(), section.body().len()), (LIMIT, 4_194_248));
    assert_eq!(write_section_vec(&SectionValues::from(&section)).unwrap(), bytes);
    let bytes = properties(0, 0, 0, 4_194_249, 4_194_249);
    assert_eq!(read(&bytes, PropertiesHeader), Err(refused(Kind::AboveTheLimit, 0)));
}

#[test]
fn example_7_key_and_certificate() {
    let mut bytes = security(0x0080, [0, 1, 0], 2, 0);
    bytes.extend_from_slice(b"k???ce??");
    bytes.extend_from_slice(&[0; 56]);
    let summary = summarize(&bytes, SecurityHeader).unwrap();
    let header = summary.security.unwrap();
    assert_eq!((header.encryption_key, header.sender_cert), (part(16, 17), part(20, 22)));
    assert_eq!((header.length, summary.section_length), (24, 80));
    let section = read(&bytes, SecurityHeader).unwrap();
    assert_eq!((section.encryption_key(), section.sender_cert()), (&b"k"[..], &b"ce"[..]));
    assert_eq!(read(&bytes[..23], SecurityHeader), Err(refused(Kind::InputShort, 0)));
    assert_eq!(read(&bytes[..24], SecurityHeader), Err(refused(Kind::InputShort, 24)));
}

#[test]
fn example_8_identity_and_signature() {
    let mut bytes = security(0x00C2, [16, 0, 5], 0, 0);
    bytes.extend_from_slice(&[7; 16]);
    bytes.extend_from_slice(b"signe???");
    bytes.extend_from_slice(&[0; 56]);
    let section = read(&bytes, SecurityHeader).unwrap();
    let header = section.summary().security.unwrap();
    assert_eq!((header.signature, header.length), (part(32, 37), 40));
    assert_eq!((section.sender_id(), section.signature()), (&[7; 16][..], &b"signe"[..]));
    assert_eq!(section.security_flags().sender_kind(), SecurityFlags::SENDER_QUEUE_MANAGER);
    assert!(section.security_flags().default_provider() && !section.security_flags().body_encrypted());
    assert!(section.authentication_fails(), "signed, with hash 0");
    bytes[0] = 0x42;
    assert_eq!(read(&bytes, SecurityHeader), Err(refused(Kind::EmptyOrDpClear, 0)));
}

#[test]
fn example_9_provider_info() {
    let mut bytes = security(0x0080, [0, 0, 4], 0, 8);
    bytes.extend_from_slice(b"sign\x01\0\0\0x\0\0\0");
    bytes.extend_from_slice(&[0; 56]);
    let section = read(&bytes, SecurityHeader).unwrap();
    let header = section.summary().security.unwrap();
    assert_eq!((header.provider_info, header.length), (part(20, 28), 28));
    assert_eq!((section.provider_type(), section.provider_name().to_string()), (Some(1), "x".to_owned()));
    bytes[12] = 6;
    assert_eq!(read(&bytes, SecurityHeader), Err(refused(Kind::Provider, 0)));
}

#[test]
fn example_10_queue_pairs() {
    let image = |kind: u8, byte: u8| {
        let value = match kind {
            1 | 4 | 5 => vec![9; 16],
            _ => text_bytes("q"),
        };
        [&[kind, byte, 0xFF, 0xFF], &value[..]].concat()
    };
    for (kind, byte) in [(4, 0x81), (5, 0x84), (8, 0x05)] {
        let bytes = image(kind, byte);
        let read = read_image(&bytes).unwrap();
        assert_eq!(read.format, QueueFormat { kind, suffix_and_flags: byte });
        assert_eq!(QueueFormat::new(kind, read.format.flags(), read.format.suffix()), Some(read.format));
        let written = with_output(40, |out| write_image(&read, out)).unwrap();
        assert_eq!(written, [&[kind, byte, 0, 0], &bytes[4..]].concat());
        for room in 0..bytes.len() {
            let short = with_output(room, |out| write_image(&read, out));
            assert_eq!(short, Err(refused(Kind::OutputShort, 0)));
        }
    }
    for (kind, byte) in [(4, 0x00), (3, 0x05), (1, 0x82)] {
        assert_eq!(read_image(&image(kind, byte)), Err(refused(Kind::QueueSuffix, 0)));
        let format = QueueFormat { kind, suffix_and_flags: byte };
        let image = Image { format, value: Value::Guid(&[9; 16]) };
        let written = with_output(40, |out| write_image(&image, out));
        assert_eq!(written, Err(refused(Kind::QueueSuffix, 0)));
    }
}

#[test]
fn every_queue_value() {
    let text = text_bytes("host\\queue");
    let cases: [(u8, usize, &[u8]); 8] = [
        (0, 0, b""),
        (1, 16, b""),
        (2, 20, b""),
        (3, 0, &text),
        (6, 16, &text),
        (7, 8, b""),
        (6, 16, b"\0\0"),
        (8, 0, &text),
    ];
    for (kind, fixed, text) in cases {
        let fixed = pattern(fixed);
        let format = QueueFormat { kind, ..QueueFormat::default() };
        let bytes = with_output(64, |out| write_image_parts(format, &fixed, text, out)).unwrap();
        let image = read_image(&bytes).unwrap();
        assert_eq!(
            (image.format, image.value.fixed(), image.value.text().bytes()),
            (format, &fixed[..], text)
        );
        let fits = match image.value {
            Value::Nothing => kind == 0,
            Value::Guid(_) => kind == 1,
            Value::ObjectId(_) => kind == 2,
            Value::MulticastId(_) => kind == 7,
            Value::Text(_) => kind == 3 || kind == 8,
            Value::GuidAndText(..) => kind == 6,
        };
        assert!(fits, "type {kind}");
    }
    assert_eq!(read_image(&[9, 0, 0, 0]), Err(refused(Kind::QueueType, 0)));
    assert_eq!(read_image(&[0, 0, 0, 0, 0]), Err(refused(Kind::QueueValue, 0)));
    assert_eq!(read_image(&[3, 0, 0, 0]), Err(refused(Kind::QueueString, 0)));
}

#[test]
fn a_queue_format_is_not_cut() {
    for (flags, suffix) in [(0x80, 0x11), (0x80, 0x81), (0x0F, 0x01), (0x81, 0x01), (0x01, 0x10)] {
        assert_eq!(QueueFormat::new(4, flags, suffix), None);
    }
    let fits = |byte: u8| QueueFormat::new(4, byte & 0xF0, byte & 0x0F);
    assert!((0..=u8::MAX).all(|byte| fits(byte).is_some_and(|format| format.suffix_and_flags == byte)));
}

#[test]
fn a_part_of_another_input() {
    let whole = part(2, 5);
    assert_eq!(whole.of(b"abcde"), Some(&b"cde"[..]));
    assert_eq!((whole.of(b"abcd"), whole.of(b"")), (None, None));
    assert_eq!(Part { start: 5, length: 0 }.of(b"abcde"), Some(&b""[..]));
    assert_eq!(Part { start: 6, length: 0 }.of(b"abcde"), None);
    for part in [Part { start: usize::MAX, length: 2 }, Part { start: 2, length: usize::MAX }] {
        assert_eq!(part.of(b"abcde"), None);
    }
}

#[test]
fn every_value_of_a_full_section() {
    let bytes = full_section();
    let section = read(&bytes, SecurityHeader).unwrap();
    assert_eq!(section.section_length(), FULL_LENGTH);
    assert_eq!(section.first(), SecurityHeader);
    assert!(!section.authentication_fails() && !section.decryption_fails());
    assert_eq!(section.security_flags(), SecurityFlags(0x00A1));
    assert_eq!(section.security_flags().sender_kind(), SecurityFlags::SENDER_SID);
    assert!(section.security_flags().body_encrypted() && !section.security_flags().default_provider());
    assert_eq!(section.sender_id(), [1, 1, 2, 3, 4, 5, 6, 7, 8, 9, 10, 11]);
    assert_eq!((section.encryption_key(), section.signature()), (&b"key"[..], &b"signe"[..]));
    assert_eq!((section.sender_cert(), section.provider_info().len()), (&b"ce"[..], 10));
    assert_eq!((section.provider_type(), section.provider_name().to_string()), (Some(1), "xy".to_owned()));
    assert_eq!(section.flags(), PropertiesFlags(0x0B));
    assert!(section.flags().has(PropertiesFlags::PA | PropertiesFlags::NR));
    assert!(!section.flags().has(PropertiesFlags::NA));
    assert_eq!((section.label_length(), section.message_class()), (Units(2), 2));
    assert_eq!((section.correlation_id(), section.application_tag()), (&[0xCC; 20], 0xDEAD_BEEF));
    assert_eq!((section.body_type(), section.privacy_level()), (8, 5));
    assert_eq!((section.message_size(), section.allocation_body_size()), (1, 9));
    assert_eq!((section.hash_algorithm(), section.encryption_algorithm()), (0x800C, 0x6610));
    assert_eq!((section.label(), section.label_text().to_string()), (&b"a\0\0\0"[..], "a".to_owned()));
    assert_eq!((section.extension(), section.extension_size(), section.body()), (&b"ext"[..], 3, &b"B"[..]));
    assert_eq!(summarize(&bytes, SecurityHeader), Ok(section.summary()));
    let header = section.summary().security.unwrap();
    assert_eq!((header.sid_revision, header.sid_sub_authority_count), (1, 1));
    let shown = format!("{section:?} {:?}", SectionValues::from(&section));
    assert!(!shown.contains("204") && !shown.contains("107, 101, 121"), "nothing private is shown: {shown}");
}

#[test]
fn verdicts_refuse_nothing() {
    let verdicts = |values: &SectionValues<'_>| {
        let bytes = write_section_vec(values).unwrap();
        let section = read(&bytes, values.first).unwrap();
        assert_eq!(
            write_section_vec(&SectionValues::from(&section)),
            Ok(bytes.clone()),
            "it is written again"
        );
        (section.authentication_fails(), section.decryption_fails(), section.retired())
    };
    let plain = SectionValues::default();
    for level in 0..8 {
        let fails = ![0, 1, 3, 5].contains(&level);
        assert_eq!(verdicts(&SectionValues { privacy_level: level, ..plain }), (fails, false, level == 1));
    }
    let security_flags = SecurityFlags(SecurityFlags::DP | SecurityFlags::DE);
    let signed = SectionValues { first: SecurityHeader, security_flags, signature: b"s", ..plain };
    for hash in 0x8000..0x8010 {
        let fails = ![0x8001, 0x8002, 0x8003, 0x8004, 0x800C, 0x800E].contains(&hash);
        let retired = [0x8001, 0x8002, 0x8003].contains(&hash);
        assert_eq!(verdicts(&SectionValues { hash_algorithm: hash, ..signed }), (fails, false, retired));
        let unsigned = SectionValues { signature: b"", sender_cert: b"c", hash_algorithm: hash, ..signed };
        assert_eq!(verdicts(&unsigned), (false, false, false));
        assert_eq!(verdicts(&SectionValues { hash_algorithm: hash, ..plain }), (false, false, false));
    }
}

#[test]
fn decryption_fails_by_the_pair() {
    let allowed = |level: u32| match level {
        1 | 3 => &[0x6602, 0x6801][..],
        5 => &[0x660E, 0x660F, 0x6610],
        _ => &[],
    };
    for (level, eb) in (0..8).flat_map(|level| [(level, SecurityFlags::EB), (level, 0)]) {
        let security_flags = SecurityFlags(SecurityFlags::DP | eb);
        let values = SectionValues {
            first: SecurityHeader,
            security_flags,
            privacy_level: level,
            ..Default::default()
        };
        for algorithm in 0x6600..0x6803 {
            let values = SectionValues { encryption_key: b"k", encryption_algorithm: algorithm, ..values };
            let bytes = write_section_vec(&values).unwrap();
            let fails = read(&bytes, SecurityHeader).unwrap().decryption_fails();
            assert_eq!(fails, eb != 0 && !allowed(level).contains(&algorithm), "{level}, {algorithm:#x}");
        }
    }
}

#[test]
fn identities_by_sender_kind() {
    let identity = |kind: u16, sender_id: &[u8]| {
        let values = SectionValues {
            first: SecurityHeader,
            security_flags: SecurityFlags(SecurityFlags::DP | kind),
            sender_id,
            encryption_key: b"k",
            ..Default::default()
        };
        let bytes = write_section_vec(&values)?;
        let header = summarize(&bytes, SecurityHeader)?.security.unwrap();
        Ok((header.sender_id, header.sid_revision, header.sid_sub_authority_count))
    };
    assert_eq!(identity(SecurityFlags::SENDER_NONE, &[]), Ok((part(16, 16), 0, 0)));
    assert_eq!(identity(SecurityFlags::SENDER_QUEUE_MANAGER, &[1; 16]), Ok((part(16, 32), 0, 0)));
    for k in 0..17 {
        let mut sid = vec![0xFF; 8 + 4 * k as usize];
        sid[..2].copy_from_slice(&[1, k]);
        let answer =
            if k < 16 { Ok((part(16, 16 + sid.len()), 1, k)) } else { Err(refused(Kind::Identity, 2)) };
        assert_eq!(identity(SecurityFlags::SENDER_SID, &sid), answer);
    }
}

#[test]
fn summaries_and_copies_hold_the_judged_bits_alone() {
    let bytes = full_section();
    let copy = with_output(FULL_LENGTH + 3, |out| support_copy(&bytes, SecurityHeader, out)).unwrap();
    assert_eq!(support_copy_vec(&bytes, SecurityHeader).unwrap(), copy);
    assert_eq!(copy, full_copy());
    for room in 0..FULL_LENGTH {
        let short = with_output(room, |out| support_copy(&bytes, SecurityHeader, out));
        assert_eq!(short, Err(refused(Kind::OutputShort, 0)));
    }

    // a bit is judged exactly where the summary tells it
    for at in 0..FULL_LENGTH {
        for bit in 0..8 {
            let mut other = bytes.clone();
            other[at] ^= 1 << bit;
            let same = summarize(&other, SecurityHeader) == summarize(&bytes, SecurityHeader);
            assert_eq!(same, same_summary(&other, &bytes, SecurityHeader));
            assert_eq!(
                same,
                support_copy_vec(&other, SecurityHeader).as_ref() == Ok(&copy),
                "byte {at}, bit {bit}"
            );
        }
    }
}

#[test]
fn what_was_read_is_written_again() {
    let bytes = full_section();
    let values = SectionValues::from(&read(&bytes, SecurityHeader).unwrap());
    let written = with_output(FULL_LENGTH + 3, |out| write_section(&values, out)).unwrap();
    let mut expected = bytes[..FULL_LENGTH].to_vec();
    expected[1] = 0;
    expected[31] = 0;
    expected[37..40].fill(0);
    expected[42..44].fill(0);
    expected[54..56].fill(0);
    expected[56] = 0x0B;
    assert_eq!(written, expected);
    assert_eq!(write_section_vec(&values).unwrap(), expected);
    assert_eq!(SectionValues::from(&read(&written, SecurityHeader).unwrap()), values);
    for room in 0..FULL_LENGTH {
        let short = with_output(room, |out| write_section(&values, out));
        assert_eq!(short, Err(refused(Kind::OutputShort, 0)));
    }
}

/// Refused with this, and the output is as it stood.
#[track_caller]
fn write_refused(values: &SectionValues<'_>, kind: Kind, place: usize) {
    let answer = with_output(FULL_LENGTH, |out| write_section(values, out));
    assert_eq!(answer, Err(refused(kind, place)));
    assert_eq!(write_section_vec(values), Err(refused(kind, place)));
}

#[test]
fn refused_writes_of_a_security_header() {
    let bytes = full_section();
    let good = SectionValues::from(&read(&bytes, SecurityHeader).unwrap());
    let long = vec![0; 65_536];
    let cases = [
        (SectionValues { encryption_key: &long, message_class: 3, ..good }, Kind::PartTooLarge, 0),
        (SectionValues { signature: &long, ..good }, Kind::PartTooLarge, 0),
        (SectionValues { sender_cert: &long, ..good }, Kind::PartTooLarge, 0),
        (SectionValues { security_flags: SecurityFlags(0x0083), ..good }, Kind::SenderKind, 0),
        (SectionValues { security_flags: SecurityFlags(0x0091), ..good }, Kind::AuOrAs, 0),
        (SectionValues { security_flags: SecurityFlags(0x0181), ..good }, Kind::AuOrAs, 0),
        (SectionValues { security_flags: SecurityFlags(0x0001), ..good }, Kind::EmptyOrDpClear, 0),
        (SectionValues { sender_id: &long[..65_535], ..good }, Kind::Identity, 2),
        (SectionValues { sender_id: &[1; 8], ..good }, Kind::Identity, 2),
        (SectionValues { security_flags: SecurityFlags(0x00C1), ..good }, Kind::Provider, 0),
        (SectionValues { provider_info: &[1; 9], ..good }, Kind::Provider, 0),
        (SectionValues { provider_info: &[1; 10], ..good }, Kind::Provider, 52),
        (SectionValues { provider_info: &[0; 10], ..good }, Kind::Provider, 48),
        (SectionValues { provider_info: b"typex\0\0\0y\0\0\0", ..good }, Kind::Provider, 50),
        (SectionValues { encryption_key: b"", provider_info: &[0; 10], ..good }, Kind::Provider, 44),
    ];
    for (values, kind, place) in cases {
        write_refused(&values, kind, place);
    }
    for (flags, place) in [(SecurityFlags::DP, 2), (0, 0)] {
        let security_flags = SecurityFlags(flags);
        let empty = SectionValues { first: SecurityHeader, security_flags, ..Default::default() };
        write_refused(&empty, Kind::EmptyOrDpClear, place);
    }
}

#[test]
fn refused_writes_of_a_properties_header() {
    let bytes = full_section();
    let good = SectionValues::from(&read(&bytes, SecurityHeader).unwrap());
    let label = label(251);
    let cases = [
        (SectionValues { label: &label, ..good }, Kind::LabelLength, 1),
        (SectionValues { label: &[1, 0, 0], message_class: 3, ..good }, Kind::LabelLength, 1),
        (SectionValues { message_class: 0x8008, ..good }, Kind::Class, 2),
        (SectionValues { allocation_body_size: 0, ..good }, Kind::Allocation, 36),
        (SectionValues { allocation_body_size: usize::MAX, ..good }, Kind::Allocation, 36),
        (SectionValues { label: &[1, 0], ..good }, Kind::Label, 56),
        (SectionValues { label: &[1, 0, 1, 0, 0, 1], ..good }, Kind::Label, 60),
        (SectionValues { label: &[1, 0, 0, 0, 0, 0, 1, 0], ..good }, Kind::Label, 58),
    ];
    for (values, kind, at) in cases {
        write_refused(&values, kind, 56 + at);
        write_refused(&SectionValues { encryption_key: b"longer", ..values }, kind, 60 + at);
        write_refused(&SectionValues { first: PropertiesHeader, ..values }, kind, at);
    }
    let key = vec![0; 65_536];
    let values = SectionValues { encryption_key: &key, ..Default::default() };
    let written = write_section_vec(&values).unwrap();
    assert_eq!(written, [0; 56], "without a SecurityHeader its parts are ignored");
}

#[test]
fn refused_writes_above_the_limit() {
    let bytes = full_section();
    let good = SectionValues::from(&read(&bytes, SecurityHeader).unwrap());
    let huge = vec![0; LIMIT];
    write_refused(&SectionValues { provider_info: &huge, ..good }, Kind::AboveTheLimit, 0);
    write_refused(&SectionValues { extension: &huge, ..good }, Kind::AboveTheLimit, 56);
    write_refused(&SectionValues { extension: &huge, ..Default::default() }, Kind::AboveTheLimit, 0);
}

#[test]
fn refused_copies_leave_the_output_as_it_stood() {
    let bytes = full_section();
    for end in 0..FULL_LENGTH {
        let answer = with_output(FULL_LENGTH, |out| support_copy(&bytes[..end], SecurityHeader, out));
        assert_eq!(answer, Err(refused(Kind::InputShort, if end < 56 { 0 } else { 56 })));
        assert_eq!(
            support_copy_vec(&bytes[..end], SecurityHeader),
            read(&bytes[..end], SecurityHeader).map(|_| Vec::new())
        );
    }
}

#[test]
fn empty_slices_everywhere() {
    let short = refused(Kind::InputShort, 0);
    for first in [PropertiesHeader, SecurityHeader] {
        assert_eq!(read(&[], first), Err(short));
        assert_eq!(summarize(&[], first), Err(short));
        assert_eq!(support_copy(&[], first, &mut []), Err(short));
        assert_eq!(support_copy_vec(&[], first), Err(short));
        assert!(!same_summary(&[], &[], first));
        assert_eq!(label_shown(&[], first, &[]), []);
    }
    assert_eq!(read_image(&[]), Err(short));
    let nothing = Image { format: QueueFormat::default(), value: Value::Nothing };
    assert_eq!(write_image(&nothing, &mut []), Err(refused(Kind::OutputShort, 0)));
    assert_eq!(write_image(&nothing, &mut [1; 4]), Ok(4));
    assert_eq!(write_section(&SectionValues::default(), &mut []), Err(refused(Kind::OutputShort, 0)));
    assert_eq!(write_section_vec(&SectionValues::default()).unwrap(), [0; 56]);
    let header_alone = SectionValues { first: SecurityHeader, ..Default::default() };
    assert_eq!(write_section(&header_alone, &mut []), Err(refused(Kind::EmptyOrDpClear, 0)));
    assert_eq!(Text::new(&[]).to_string(), "");
}

#[test]
fn text_is_shown_without_its_null() {
    assert_eq!(Text::new(&text_bytes("Seil \u{1F9F5}")).to_string(), "Seil \u{1F9F5}");
    assert_eq!(Text::new(b"a\0\0\xD8").to_string(), "a\u{FFFD}");
    assert_eq!(Text::new(b"a\0\0").units().collect::<Vec<_>>(), [0x61]);
    assert_eq!(Text::new(b"\0\0").units().count(), 0);
}

#[test]
fn refusals_have_their_numbers_and_words() {
    let all = Kind::ALL.iter().map(|&kind| kind as u32);
    let (numbers, of_values): (Vec<u32>, Vec<u32>) = all.partition(|&number| number < 60);
    assert_eq!(numbers, (1..=16).chain(20..=33).collect::<Vec<_>>());
    assert_eq!(of_values, (60..=62).collect::<Vec<_>>());
    for kind in Kind::ALL {
        assert_eq!(refused(kind, 0).kind(), Some(kind));
    }
    assert_eq!(Refusal { number: 17, place: 0 }.kind(), None);
    let error: Box<dyn std::error::Error> = refused(Kind::EmptyOrDpClear, 0).into();
    assert_eq!(error.to_string(), "refused with 4 at 0: all five sizes zero, or DP clear");
}
