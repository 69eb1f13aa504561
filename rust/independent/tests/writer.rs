//! The section writer: order, places, widths, and what it gives back of what was read.

use independent::generate::{case, long_case, section_values, Random};
use independent::{number, read, same_summary, support_copy, write_section, Refusal, SectionValues, LIMIT};

fn refused(number: u32, place: usize) -> Result<usize, Refusal> {
    Err(Refusal { number, place })
}

/// What writing `values` gives, with a check that a refusal leaves the output as it stood.
fn answer(values: &SectionValues, room: usize) -> Result<usize, Refusal> {
    let mut out = vec![0x55; room];
    let answer = write_section(values, &mut out);
    let written = answer.unwrap_or(0);
    assert!(out[written..].iter().all(|&byte| byte == 0x55));
    answer
}

/// Security flags 0x0080 with a key of 4 bytes: a header of 20 bytes.
fn plain() -> SectionValues<'static> {
    SectionValues {
        security_first: true,
        security_flags: 0x80,
        encryption_key: b"key!",
        ..Default::default()
    }
}

#[test]
fn each_step_refuses_with_its_number_and_place() {
    let plain = plain();
    let long = vec![1; 65_536];
    let sid = [1, 1, 0, 0, 0, 0, 0, 0, 0, 0, 0, 0];
    let with = |security_flags| SectionValues { security_flags, ..plain };
    let table = [
        (SectionValues { encryption_key: &long, ..with(0xFFFF) }, number::PART_SIZE, 0),
        (SectionValues { signature: &long, ..with(0xFFFF) }, number::PART_SIZE, 0),
        (SectionValues { sender_cert: &long, ..with(0xFFFF) }, number::PART_SIZE, 0),
        (with(0x83), number::SENDER_KIND, 0),
        (with(0x90), number::AUTHENTICATED, 0),
        (with(0x180), number::AUTHENTICATED, 0),
        (with(0x00), number::EMPTY, 0),
        (SectionValues { encryption_key: b"", ..plain }, number::EMPTY, 2),
        (SectionValues { encryption_key: b"", ..with(0x00) }, number::EMPTY, 0),
        (SectionValues { sender_id: &[7; 16], ..plain }, number::IDENTITY, 2),
        (SectionValues { sender_id: &sid[..11], ..with(0x81) }, number::IDENTITY, 2),
        (SectionValues { sender_id: &[1; 16], ..with(0x81) }, number::IDENTITY, 2),
        (SectionValues { provider_info: &[1; 6], ..with(0xC0) }, number::PROVIDER, 0),
        (SectionValues { signature: b"s", ..plain }, number::PROVIDER, 0),
        (SectionValues { provider_info: &[1; 6], ..plain }, number::PROVIDER, 24),
        (SectionValues { provider_info: b"type\x01\0\0\0\0\0", ..plain }, number::PROVIDER, 26),
        (SectionValues { label: &[1; 3], message_class: 3, ..plain }, number::LABEL_LENGTH, 21),
        (SectionValues { label: &[1; 502], message_class: 3, ..plain }, number::LABEL_LENGTH, 21),
        (SectionValues { message_class: 3, allocation_body_size: LIMIT + 1, ..plain }, number::CLASS, 22),
        (SectionValues { body: b"b", label: b"aa", ..plain }, number::ALLOCATION, 56),
        (SectionValues { allocation_body_size: LIMIT + 1, ..plain }, number::ALLOCATION, 56),
        (SectionValues { allocation_body_size: 1 << 32, ..plain }, number::ALLOCATION, 56),
        (SectionValues { label: b"aa", ..plain }, number::LABEL, 76),
        (SectionValues { label: &[0; 4], ..plain }, number::LABEL, 76),
        (SectionValues { label: b"aabb", ..plain }, number::LABEL, 78),
    ];
    for (values, number, place) in table {
        assert_eq!(answer(&values, 0), refused(number, place));
    }
    assert_eq!(answer(&plain, 75), refused(number::OUTPUT_SHORT, 0));
    assert_eq!(answer(&plain, 76), Ok(76));
}

#[test]
fn nothing_wraps() {
    let zeros = vec![0; 65_552];
    let sixteen = SectionValues { sender_id: &zeros, security_flags: 0x82, ..plain() };
    assert_eq!(answer(&sixteen, 70_000), refused(number::IDENTITY, 2));
    let none = SectionValues { sender_id: &zeros[..65_536], ..plain() };
    assert_eq!(answer(&none, 70_000), refused(number::IDENTITY, 2));
    let label = SectionValues { label: &zeros[..512], ..Default::default() };
    assert_eq!(answer(&label, 700), refused(number::LABEL_LENGTH, 1));
}

#[test]
fn identities_of_kind_1_and_2() {
    for length in 0..=80 {
        let mut identity = vec![1; length];
        if length >= 8 {
            identity[1] = ((length - 8) / 4) as u8;
        }
        let first = SectionValues { security_flags: 0x81, sender_id: &identity, ..plain() };
        let second = SectionValues { security_flags: 0x82, ..first };
        let expected = |passes: bool| {
            if passes {
                Ok(76 + length)
            } else {
                refused(number::IDENTITY, 2)
            }
        };
        let listed = (8..=68).step_by(4).any(|size| size == length);
        assert_eq!(answer(&first, 200), expected(listed));
        assert_eq!(answer(&second, 200), expected(length == 16));
    }
    for start in [[0, 2], [2, 2], [1, 1], [1, 3], [2, 1]] {
        let identity = [&start[..], &[0; 14]].concat();
        let first = SectionValues { security_flags: 0x81, sender_id: &identity, ..plain() };
        assert_eq!(answer(&first, 200), refused(number::IDENTITY, 2));
        assert_eq!(answer(&SectionValues { security_flags: 0x82, ..first }, 200), Ok(92));
    }
}

#[test]
fn x_bits_are_written_zero() {
    let values = SectionValues { security_flags: 0xF0A0, flags: 0xFA, ..plain() };
    let mut out = [0x55; 76];
    assert_eq!(write_section(&values, &mut out), Ok(76));
    assert_eq!((&out[..2], out[20]), (&[0xA0, 0x00][..], 0x0A));
}

#[test]
fn without_a_security_header_its_values_are_ignored() {
    let long = vec![1; 65_536];
    let values = SectionValues {
        security_first: false,
        security_flags: 0xFFFF,
        sender_id: &long,
        encryption_key: &long,
        signature: &long,
        sender_cert: &long,
        provider_info: &long,
        ..Default::default()
    };
    assert_eq!(answer(&values, 56), Ok(56));
}

#[test]
fn sizes_at_the_limit() {
    let mut info = vec![1; LIMIT as usize];
    let units = |info: &mut Vec<u8>, length: usize| {
        info.fill(1);
        info[length - 2..length].fill(0);
    };
    // A header of exactly the limit passes S8; the properties header behind it does not fit.
    units(&mut info, LIMIT as usize - 20);
    let values = SectionValues { provider_info: &info[..LIMIT as usize - 20], ..plain() };
    assert_eq!(answer(&values, 0), refused(number::LIMIT, LIMIT as usize));
    let values = SectionValues { provider_info: &info[..LIMIT as usize - 18], ..plain() };
    assert_eq!(answer(&values, 0), refused(number::LIMIT, 0));
    units(&mut info, LIMIT as usize - 76);
    let values = SectionValues { provider_info: &info[..LIMIT as usize - 76], ..plain() };
    assert_eq!(answer(&values, LIMIT as usize), Ok(LIMIT as usize));
    let values = SectionValues { extension: &info[..LIMIT as usize - 75], ..plain() };
    assert_eq!(answer(&values, 0), refused(number::LIMIT, 20));
}

/// The section with X bits and padding zero, found byte by byte.
fn cleared(section: &[u8], security_first: bool) -> Vec<u8> {
    let summary = read(section, security_first).unwrap().summary;
    let parts = summary.parts;
    let at = parts.label.start - 56;
    let mut kept = vec![false; summary.length];
    kept[at..at + 56].fill(true);
    if security_first {
        kept[..16].fill(true);
    }
    let security = [parts.identity, parts.key, parts.signature, parts.certificate, parts.provider];
    for part in security.into_iter().chain([parts.label, parts.extension, parts.body]) {
        kept[part.start..part.start + part.length].fill(true);
    }
    let mut bytes: Vec<u8> =
        section.iter().zip(&kept).map(|(&byte, &kept)| if kept { byte } else { 0 }).collect();
    bytes[at] &= 0x0F;
    if security_first {
        bytes[1] &= 0x0F;
    }
    bytes
}

#[test]
fn writing_what_was_read_gives_that_section() {
    let mut r = Random::new(11);
    let cases = (0..20_000).map(|_| case(&mut r)).collect::<Vec<_>>();
    let long = (0..5).map(|_| long_case(&mut r)).collect::<Vec<_>>();
    let mut accepted = 0;
    for case in cases.iter().chain(&long) {
        let Ok(section) = read(&case.bytes, case.security_first) else { continue };
        let length = section.summary.length;
        let mut out = vec![0x55; length + 5];
        let values = SectionValues::of(&section, &case.bytes);
        assert_eq!(write_section(&values, &mut out), Ok(length));
        assert_eq!(out[..length], cleared(&case.bytes, case.security_first));
        assert_eq!(out[length..], [0x55; 5]);
        accepted += 1;
    }
    assert!(accepted > 6_000);
}

#[test]
fn what_is_written_reads_back() {
    let mut r = Random::new(12);
    for _ in 0..20_000 {
        let owned = section_values(&mut r);
        let values = owned.as_values();
        let mut out = vec![0x55; owned.room];
        let Ok(length) = write_section(&values, &mut out) else {
            assert!(out.iter().all(|&byte| byte == 0x55));
            continue;
        };
        assert_eq!(length, owned.length());
        assert!(out[length..].iter().all(|&byte| byte == 0x55));
        let section = read(&out, values.security_first).unwrap();
        let mut expected = SectionValues { flags: values.flags & 0x0F, ..values };
        if values.security_first {
            expected.security_flags &= 0x0FFF;
        } else {
            let none = SectionValues::default();
            expected = SectionValues {
                security_flags: 0,
                sender_id: none.sender_id,
                encryption_key: none.encryption_key,
                signature: none.signature,
                sender_cert: none.sender_cert,
                provider_info: none.provider_info,
                ..expected
            };
        }
        assert_eq!(SectionValues::of(&section, &out), expected);
    }
}

#[test]
fn copies_read_to_their_originals_summary() {
    let mut r = Random::new(13);
    for _ in 0..20_000 {
        let case = case(&mut r);
        let mut out = vec![0x55; case.bytes.len() + 3];
        match (
            read(&case.bytes, case.security_first),
            support_copy(&case.bytes, case.security_first, &mut out),
        ) {
            (Ok(section), answer) => {
                assert_eq!(answer, Ok(section.summary.length));
                assert!(same_summary(&case.bytes, &out, case.security_first));
            }
            (Err(refusal), answer) => {
                assert_eq!(answer, Err(refusal));
                assert!(out.iter().all(|&byte| byte == 0x55));
            }
        }
    }
}
