//! The paper's examples 1 to 11, the listing's, C-14's and C-21's, with content that passes S10, S11 and P7.

use independent::queue::{read_image, write_image};
use independent::request::{defaulted, send, Request};
use independent::{label_shown, listing, number, read, same_summary, support_copy, write_section};
use independent::{Part, Refusal, SectionValues, LIMIT};

/// A MessagePropertiesHeader with these numbers and no parts.
fn properties(label: u8, class: u16, extension: u32, body: u32, allocation: u32) -> Vec<u8> {
    let mut bytes = vec![0; 56];
    bytes[1] = label;
    bytes[2..4].copy_from_slice(&class.to_le_bytes());
    bytes[32..36].copy_from_slice(&body.to_le_bytes());
    bytes[36..40].copy_from_slice(&allocation.to_le_bytes());
    bytes[52..56].copy_from_slice(&extension.to_le_bytes());
    bytes
}

/// `units - 1` letters and a null.
fn label(units: usize) -> Vec<u8> {
    let mut bytes = [b'a', 0].repeat(units - 1);
    bytes.extend_from_slice(&[0, 0]);
    bytes
}

/// The fixed part of a SecurityHeader.
fn security(flags: u16, sizes: [u16; 3], certificate: u32, provider: u32) -> Vec<u8> {
    let mut bytes = flags.to_le_bytes().to_vec();
    for size in sizes {
        bytes.extend_from_slice(&size.to_le_bytes());
    }
    bytes.extend_from_slice(&certificate.to_le_bytes());
    bytes.extend_from_slice(&provider.to_le_bytes());
    bytes
}

fn refused(number: u32, place: usize) -> Refusal {
    Refusal { number, place }
}

fn part(start: usize, end: usize) -> Part {
    Part { start, length: end - start }
}

#[test]
fn example_1_zero_bytes() {
    let zero = [0; 56];
    let section = read(&zero, false).unwrap();
    assert_eq!(section.summary.length, 56);
    assert!(section.summary.security.is_none());
    assert!(!section.summary.authentication_fails);
    assert!(!section.summary.decryption_fails);
    assert_eq!(read(&zero[..55], false).unwrap_err(), refused(number::INPUT_SHORT, 0));
}

#[test]
fn example_2_parts_follow_each_other() {
    let mut bytes = properties(3, 0, 5, 2, 2);
    bytes.extend_from_slice(&label(3));
    bytes.extend_from_slice(b"extenbo???");
    let summary = read(&bytes, false).unwrap().summary;
    assert_eq!(summary.parts.label, part(56, 62));
    assert_eq!(summary.parts.extension, part(62, 67));
    assert_eq!(summary.parts.body, part(67, 69));
    assert_eq!(summary.length, 72);
    for cut in 69..72 {
        assert_eq!(read(&bytes[..cut], false).unwrap_err(), refused(number::INPUT_SHORT, 0));
    }
}

#[test]
fn example_3_longest_label() {
    let mut bytes = properties(250, 0, 0, 0, 0);
    bytes.extend_from_slice(&label(250));
    assert_eq!(read(&bytes, false).unwrap().summary.length, 556);
    for class in [0, 0x8008] {
        let bytes = properties(251, class, 0, 0, 0);
        assert_eq!(read(&bytes, false).unwrap_err(), refused(number::LABEL_LENGTH, 1));
    }
}

#[test]
fn example_4_label_of_one_unit() {
    let mut bytes = properties(1, 0, 0, 0, 0);
    bytes.extend_from_slice(&[0; 4]);
    assert_eq!(read(&bytes, false).unwrap().summary.length, 60);
    assert_eq!(label_shown(&bytes, false, b"none"), [0, 0]);
    bytes[57] = 1;
    assert_eq!(read(&bytes, false).unwrap_err(), refused(number::LABEL, 56));
    assert_eq!(label_shown(&bytes, false, b"none"), b"none");
}

#[test]
fn example_5_classes() {
    let answer = |class| read(&properties(0, class, 0, 0, 0), false).map(|s| s.summary.properties.class);
    assert_eq!(answer(0x8008), Err(refused(number::CLASS, 2)));
    assert_eq!(answer(0x8009), Ok(0x8009));
    let listed: Vec<u16> = (0..=u16::MAX).filter(|&class| answer(class).is_ok()).collect();
    assert_eq!(listed, independent::generate::CLASSES);
}

#[test]
fn example_6_at_the_limit() {
    let mut bytes = properties(0, 0, 0, 4_194_248, 4_194_248);
    assert_eq!(read(&bytes, false).unwrap_err(), refused(number::INPUT_SHORT, 0));
    bytes.resize(LIMIT as usize, 0xAA);
    assert_eq!(read(&bytes, false).unwrap().summary.length, LIMIT as usize);
    let bytes = properties(0, 0, 0, 4_194_249, 4_194_249);
    assert_eq!(read(&bytes, false).unwrap_err(), refused(number::LIMIT, 0));
}

#[test]
fn example_7_key_and_certificate() {
    let mut bytes = security(0x0080, [0, 1, 0], 2, 0);
    bytes.extend_from_slice(b"k???ce??");
    let fixed = bytes.len();
    bytes.extend_from_slice(&[0; 56]);
    let section = read(&bytes, true).unwrap();
    assert_eq!(section.summary.parts.key, part(16, 17));
    assert_eq!(section.summary.parts.certificate, part(20, 22));
    assert_eq!(section.summary.parts.label, part(80, 80));
    assert_eq!((section.key, section.certificate), (&b"k"[..], &b"ce"[..]));
    assert_eq!(fixed, 24);
    assert_eq!(read(&bytes[..23], true).unwrap_err(), refused(number::INPUT_SHORT, 0));
    assert_eq!(read(&bytes[..24], true).unwrap_err(), refused(number::INPUT_SHORT, 24));
}

#[test]
fn example_8_identity_and_signature() {
    let mut bytes = security(0x00C2, [16, 0, 5], 0, 0);
    bytes.extend_from_slice(&[7; 16]);
    bytes.extend_from_slice(b"signe???");
    bytes.extend_from_slice(&[0; 56]);
    let section = read(&bytes, true).unwrap();
    assert_eq!(section.summary.parts.signature, part(32, 37));
    assert_eq!(section.summary.parts.label.start, 40 + 56);
    assert!(section.summary.authentication_fails, "signed, with hash 0");
    bytes[0] = 0x42;
    assert_eq!(read(&bytes, true).unwrap_err(), refused(number::EMPTY, 0));
}

#[test]
fn example_9_provider_info() {
    let mut bytes = security(0x0080, [0, 0, 4], 0, 8);
    bytes.extend_from_slice(b"sign\x01\0\0\0x\0\0\0");
    bytes.extend_from_slice(&[0; 56]);
    let section = read(&bytes, true).unwrap();
    let security = section.summary.security.unwrap();
    assert_eq!(section.summary.parts.provider, part(20, 28));
    assert_eq!(security.provider_type, Some(1));
    assert_eq!(security.provider_name, b"x\0\0\0");
    bytes[24] = 0;
    assert_eq!(read(&bytes, true).unwrap_err(), refused(number::PROVIDER, 24));
    bytes[12] = 6;
    assert_eq!(read(&bytes, true).unwrap_err(), refused(number::PROVIDER, 0));
}

#[test]
fn allocation_is_not_the_body() {
    let bytes = properties(0, 0, 0, 0, 4);
    let summary = read(&bytes, false).unwrap().summary;
    assert_eq!((summary.length, summary.parts.body), (56, part(56, 56)));
    assert_eq!(read(&properties(0, 0, 0, 4, 3), false).unwrap_err(), refused(number::ALLOCATION, 36));
}

#[test]
fn support_copy_keeps_only_judged_bits() {
    let mut bytes = security(0xF0A1, [12, 3, 0], 0, 0);
    bytes.extend_from_slice(&[1, 1, 2, 3, 4, 5, 6, 7, 8, 9, 10, 11]);
    bytes.extend_from_slice(b"key?");
    let mut header = vec![0xFF; 56];
    header[1] = 2;
    header[2..4].copy_from_slice(&[2, 0]);
    header[32..36].copy_from_slice(&[1, 0, 0, 0]);
    header[36..40].copy_from_slice(&[9, 0, 0, 0]);
    header[52..56].copy_from_slice(&[2, 0, 0, 0]);
    bytes.extend_from_slice(&header);
    bytes.extend_from_slice(b"a\0\0\0exB?trailing");

    let length = 32 + 56 + 8;
    let mut out = vec![0x55; length + 3];
    assert_eq!(support_copy(&bytes, true, &mut out), Ok(length));
    let mut expected = bytes[..length].to_vec();
    expected[1] = 0;
    expected[18..32].fill(0);
    expected[32] = 0x0F;
    expected[36..56].fill(0);
    expected[60..64].fill(0);
    expected[92..].fill(0);
    assert_eq!(out[..length], expected);
    assert_eq!(out[length..], [0x55; 3]);
    assert!(same_summary(&bytes, &out, true));

    let mut short = vec![0x55; length - 1];
    assert_eq!(support_copy(&bytes, true, &mut short), Err(refused(number::OUTPUT_SHORT, 0)));
    assert!(short.iter().all(|&b| b == 0x55));
}

/// The length that writing `values` gives, and that the section reads back as them.
fn written(values: SectionValues) -> Result<usize, Refusal> {
    let mut out = vec![0x55; 700];
    let length = write_section(&values, &mut out)?;
    assert!(out[length..].iter().all(|&byte| byte == 0x55));
    let section = read(&out[..length], values.security_first).unwrap();
    assert_eq!(SectionValues::of(&section, &out), values);
    Ok(length)
}

#[test]
fn examples_1_to_5_written() {
    let plain = SectionValues::default();
    assert_eq!(written(plain), Ok(56));
    let (three, longest, more) = (label(3), label(250), label(251));
    let parts = SectionValues { extension: b"exten", body: b"bo", allocation_body_size: 2, ..plain };
    assert_eq!(written(SectionValues { label: &three, ..parts }), Ok(72));
    assert_eq!(written(SectionValues { label: &longest, ..plain }), Ok(556));
    for message_class in [0, 0x8008] {
        let values = SectionValues { label: &more, message_class, ..plain };
        assert_eq!(written(values), Err(refused(number::LABEL_LENGTH, 1)));
    }
    assert_eq!(written(SectionValues { label: &[0, 0], ..plain }), Ok(60));
    assert_eq!(written(SectionValues { message_class: 0x8008, ..plain }), Err(refused(number::CLASS, 2)));
    assert_eq!(written(SectionValues { message_class: 0x8009, ..plain }), Ok(56));
}

#[test]
fn example_6_written() {
    let body = vec![7; 4_194_249];
    let mut out = vec![0x55; LIMIT as usize + 4];
    let values = |length: usize| SectionValues {
        body: &body[..length],
        allocation_body_size: length as u64,
        ..Default::default()
    };
    assert_eq!(write_section(&values(4_194_249), &mut out), Err(refused(number::LIMIT, 0)));
    assert_eq!(
        write_section(&values(4_194_248), &mut out[..4_194_303]),
        Err(refused(number::OUTPUT_SHORT, 0))
    );
    assert!(out.iter().all(|&byte| byte == 0x55));
    assert_eq!(write_section(&values(4_194_248), &mut out), Ok(4_194_304));
    assert_eq!(read(&out, false).unwrap().body, &body[..4_194_248]);
    assert_eq!(out[4_194_304..], [0x55; 4]);
}

#[test]
fn examples_7_to_9_written() {
    let plain = SectionValues { security_first: true, security_flags: 0x0080, ..Default::default() };
    let seven = SectionValues { encryption_key: b"k", sender_cert: b"ce", ..plain };
    assert_eq!(written(seven), Ok(24 + 56));
    let eight = SectionValues { security_flags: 0x00C2, sender_id: &[7; 16], signature: b"signe", ..plain };
    assert_eq!(written(eight), Ok(40 + 56));
    assert_eq!(written(SectionValues { security_flags: 0x0042, ..eight }), Err(refused(number::EMPTY, 0)));
    let nine = SectionValues { signature: b"sign", provider_info: b"\x01\0\0\0x\0\0\0", ..plain };
    assert_eq!(written(nine), Ok(28 + 56));
    let six = SectionValues { provider_info: b"\x01\0\0\0\0\0", ..nine };
    assert_eq!(written(six), Err(refused(number::PROVIDER, 0)));
}

#[test]
fn example_10_queue_pairs() {
    for (kind, byte, passes) in [
        (4, 0x81, true),
        (5, 0x84, true),
        (8, 0x05, true),
        (4, 0x00, false),
        (3, 0x05, false),
        (1, 0x82, false),
    ] {
        let (fixed, text): (&[u8], &[u8]) =
            if matches!(kind, 3 | 8) { (&[], b"q\0\0\0") } else { (&[9; 16], &[]) };
        let image = [&[kind, byte, 0, 0], fixed, text].concat();
        let mut out = [0x55; 24];
        let wrote = write_image(kind, byte, fixed, text, &mut out);
        if passes {
            assert_eq!((read_image(&image).unwrap().kind, wrote), (kind, Ok(image.len())));
            assert_eq!(out[..image.len()], image);
        } else {
            assert_eq!(read_image(&image), Err(refused(number::QUEUE_PAIR, 0)));
            assert_eq!((wrote, out), (Err(refused(number::QUEUE_PAIR, 0)), [0x55; 24]));
        }
    }
}

#[test]
fn example_11_titles() {
    for (units, label_length) in [(249, 250), (250, 250), (248, 249), (0, 0)] {
        let title = vec![0x61; units];
        let request = Request { title: &title, ..Request::default() };
        assert_eq!(defaulted(&request).unwrap().carried.title.count(), units.min(249));
        let mut out = vec![0; 600];
        let length = send(&request, &mut out).unwrap();
        let section = read(&out[..length], false).unwrap();
        assert_eq!(section.summary.properties.label_length, label_length);
    }
}

#[test]
fn the_listing() {
    let mut first = properties(0, 0, 1, 3, 3);
    first.extend_from_slice(b"ebod");
    let mut file = vec![0x57, 0x52, 0, 0, 60, 0, 0, 0];
    file.extend_from_slice(&first);
    file.extend_from_slice(&[0x57, 0x52, 0, 0, 1, 0, 0, 0, 9]);
    let mut lines = Vec::new();
    listing::list(&file[..], &mut lines).unwrap();
    let expected = "\
no answer class label ext body total
0 ok 0 0 1 3 60
1 refused 1 0
end 2
";
    assert_eq!(String::from_utf8(lines).unwrap(), expected);
}

#[test]
fn level_and_algorithm() {
    let fails = |flags, level, algorithm: u32| {
        let mut header = properties(0, 0, 0, 0, 0);
        header[40] = level;
        header[48..52].copy_from_slice(&algorithm.to_le_bytes());
        let bytes = [&security(flags, [0, 1, 0], 0, 0), &b"k???"[..], &header].concat();
        read(&bytes, true).unwrap().summary.decryption_fails
    };
    for (level, algorithm, with_eb) in [(5, 0x6801, true), (5, 0x6610, false), (0, 0x6801, true)] {
        assert_eq!(fails(0x00A0, level, algorithm), with_eb, "level {level} with {algorithm:#06x}");
        assert!(!fails(0x0080, level, algorithm), "EB is clear");
    }
}

/// A section with this level and hash behind `head`: read, and written again as it was.
fn is_retired(head: &[u8], level: u32, hash: u32) -> bool {
    let mut header = properties(0, 0, 0, 0, 0);
    header[40..44].copy_from_slice(&level.to_le_bytes());
    header[44..48].copy_from_slice(&hash.to_le_bytes());
    let bytes = [head, &header].concat();
    let section = read(&bytes, !head.is_empty()).unwrap();
    let mut again = vec![0; bytes.len()];
    assert_eq!(write_section(&SectionValues::of(&section, &bytes), &mut again), Ok(bytes.len()));
    assert_eq!(again, bytes);
    section.summary.retired
}

#[test]
fn retired_level() {
    let keys = [0x0080, 0x00A0].map(|flags| [security(flags, [0, 4, 0], 0, 0), b"akey".to_vec()].concat());
    for head in [&b""[..], &keys[0], &keys[1]] {
        for (level, retired) in [(0, false), (1, true), (2, false), (3, false), (5, false), (0x101, false)] {
            assert_eq!(is_retired(head, level, 0x8004), retired, "level {level}");
        }
        assert!(!is_retired(head, 0, 0x8001), "there is no signature");
    }
}

#[test]
fn retired_hash() {
    for (flags, length) in [(0x00C0, 1), (0x00E0, 4), (0x00C0, 256)] {
        let parts = vec![7; 4_usize.max(length)];
        let mut head = [security(flags, [0, 0, length as u16], 0, 0), parts].concat();
        head[16 + length..].fill(0);
        for (hash, retired) in [
            (0x8000, false),
            (0x8001, true),
            (0x8002, true),
            (0x8003, true),
            (0x8004, false),
            (0x800C, false),
            (0x18001, false),
            (0x80018001, false),
        ] {
            assert_eq!(is_retired(&head, 0, hash), retired, "hash {hash:#x}");
            assert!(is_retired(&head, 1, hash), "level 1");
        }
    }
}
