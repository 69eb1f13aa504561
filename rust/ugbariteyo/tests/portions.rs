//! A section in portions: however it is cut, the answer is that of one-go reading for all of them joined; what is
//! refused after the finish; and the example, which shows what `summarize` says.

use std::fs;
use std::num::NonZeroU8;

use ugbariteyo::{
    same_summary, summarize, text_bytes, First, Kind, Part, Portions, Refusal, SecurityFlags, Summary, Units,
    LIMIT,
};

use First::{PropertiesHeader, SecurityHeader};

#[allow(dead_code)] // its main
#[path = "../examples/read_portions.rs"]
mod example;

#[allow(dead_code)] // what the other tests take
#[path = "given/section.rs"]
mod given_section;

use given_section::{full_section, properties, refused, security, FULL_LENGTH};

/// Where the MessagePropertiesHeader of the full section begins, and its provider name.
const P: usize = 56;
const NAME: usize = 48;

const AFTER_THE_FINISH: Refusal = Refusal { number: 14, place: 0 };

/// A section of which these portions came.
fn fed<'a>(first: First, portions: impl IntoIterator<Item = &'a [u8]>) -> Portions {
    let mut state = Portions::new(first);
    for bytes in portions {
        assert_eq!(state.portion(bytes), Ok(()));
    }
    state
}

/// The answer of one-go reading, as portions give it.
fn in_one_go(input: &[u8], first: First) -> Result<Summary<'_>, Refusal> {
    summarize(input, first).map(Summary::without_provider_name)
}

/// The bytes cut into portions of up to `most` bytes, at random; of none too.
fn cut(mut bytes: &[u8], most: usize, mut random: u64) -> Vec<&[u8]> {
    let mut portions = vec![];
    while !bytes.is_empty() {
        random = random.wrapping_mul(6_364_136_223_846_793_005).wrapping_add(1_442_695_040_888_963_407);
        let (portion, rest) = bytes.split_at(((random >> 33) as usize % (most + 1)).min(bytes.len()));
        portions.push(portion);
        bytes = rest;
    }
    portions
}

/// Whole, byte by byte and cut at random, it is answered as in one go; the answer.
#[track_caller]
fn answer(input: &[u8], first: First) -> Result<Summary<'_>, Refusal> {
    let wanted = in_one_go(input, first);
    assert_eq!(fed(first, [input]).finish(), wanted);
    assert_eq!(fed(first, input.chunks(1)).finish(), wanted);
    for (most, random) in [(2, 1), (3, 2), (20, 3), (100, 4)] {
        assert_eq!(fed(first, cut(input, most, random)).finish(), wanted, "up to {most} bytes");
    }
    wanted
}

#[test]
fn every_value_of_a_full_section() {
    let mut state = fed(SecurityHeader, full_section().chunks(1));
    let summary = state.finish().unwrap();
    assert_eq!((summary.section_length, summary.message_class), (FULL_LENGTH, 2));
    assert_eq!((summary.label_length, summary.label.bytes()), (Units(2), &b"a\0\0\0"[..]));
    assert_eq!(summary.label_part, Part { start: P + 56, length: 4 });
    assert_eq!(summary.extension, Part { start: P + 60, length: 3 });
    assert_eq!(summary.body, Part { start: P + 63, length: 1 });
    assert_eq!((summary.flags.0, summary.body_type, summary.privacy_level), (0x0B, 8, 5));
    assert_eq!((summary.message_size, summary.allocation_body_size, summary.extension_size), (1, 9, 3));
    assert_eq!((summary.hash_algorithm, summary.encryption_algorithm), (0x800C, 0x6610));
    assert!(!summary.authentication_fails && !summary.decryption_fails && !summary.retired);
    let security = summary.security.unwrap();
    assert_eq!((security.flags, security.length), (SecurityFlags(0x00A1), P));
    assert_eq!((security.sid_revision, security.sid_sub_authority_count), (1, 1));
    assert_eq!(security.signature, Part { start: 32, length: 5 });
    assert_eq!(security.provider_info, Part { start: NAME - 4, length: 10 });
    assert_eq!((security.provider_type, security.provider_name.bytes()), (Some(1), &[][..]));
}

#[test]
fn the_name_alone_is_not_had() {
    let bytes = full_section();
    let whole = summarize(&bytes, SecurityHeader).unwrap();
    let without = whole.without_provider_name();
    assert_eq!(whole.security.unwrap().provider_name.to_string(), "xy");
    assert_ne!(without, whole);
    let mut with = without;
    with.security.as_mut().unwrap().provider_name = whole.security.unwrap().provider_name;
    assert_eq!(with, whole);
    // there is none where there is no provider info, or no SecurityHeader
    for (input, first) in
        [(&b"\x80\0\0\0\x01\0\0\0\0\0\0\0\0\0\0\0k???"[..], SecurityHeader), (b"", PropertiesHeader)]
    {
        let input = [input, &[0; 56]].concat();
        let whole = summarize(&input, first).unwrap();
        assert_eq!(answer(&input, first), Ok(whole));
        assert_eq!(whole.security.and_then(|security| security.provider_type), None);
    }
}

#[test]
fn however_it_is_cut() {
    let bytes = full_section();
    for (input, first) in [(&bytes[..], SecurityHeader), (&bytes[P..], PropertiesHeader)] {
        let wanted = in_one_go(input, first);
        assert_eq!(wanted.unwrap().label.to_string(), "a");
        for size in 1..=input.len() {
            assert_eq!(fed(first, input.chunks(size)).finish(), wanted, "{size} bytes each");
        }
        for (one, two) in (0..=input.len()).flat_map(|two| (0..=two).map(move |one| (one, two))) {
            let portions = [&input[..one], &input[one..two], &[], &input[two..]];
            assert_eq!(fed(first, portions).finish(), wanted, "cut at {one} and {two}");
        }
        for random in 0..500 {
            assert_eq!(fed(first, cut(input, 1 + random as usize % 60, random)).finish(), wanted);
        }
    }
}

#[test]
fn empty_portions_do_not_count() {
    for bytes in [full_section(), with(&[(NAME, &[0, 0])])] {
        let portions = bytes.chunks(1).flat_map(|byte| [&[][..], byte, &[], &[]]);
        assert_eq!(fed(SecurityHeader, portions).finish(), in_one_go(&bytes, SecurityHeader));
    }
}

#[test]
fn no_portion_at_all_is_the_empty_input() {
    for first in [PropertiesHeader, SecurityHeader] {
        assert_eq!(Portions::new(first).finish(), Err(refused(Kind::InputShort, 0)));
        assert_eq!(fed(first, [&[][..]; 2]).finish(), Err(refused(Kind::InputShort, 0)));
    }
}

/// Cut off, or a bit turned over: each is answered as in one go, and a bit outside the provider name is told exactly
/// where it is judged.
#[test]
fn every_cut_and_every_bit() {
    let bytes = full_section();
    for end in 0..=bytes.len() {
        let short = Err(refused(Kind::InputShort, if end < P { 0 } else { P }));
        let wanted = if end < FULL_LENGTH { short } else { in_one_go(&bytes, SecurityHeader) };
        assert_eq!(answer(&bytes[..end], SecurityHeader), wanted);
    }
    let whole = in_one_go(&bytes, SecurityHeader);
    let mut refusals = vec![];
    for (at, bit) in (0..bytes.len()).flat_map(|at| (0..8).map(move |bit| (at, bit))) {
        let mut other = bytes.clone();
        other[at] ^= 1 << bit;
        match answer(&other, SecurityHeader) {
            Ok(summary) => {
                let in_the_name = (NAME..NAME + 6).contains(&at);
                let same = same_summary(&other, &bytes, SecurityHeader) || in_the_name;
                assert_eq!(Ok(summary) == whole, same, "byte {at}, bit {bit}");
            }
            Err(refusal) => refusals.push(refusal.number),
        }
    }
    refusals.sort();
    refusals.dedup();
    assert_eq!(refusals, [1, 2, 3, 4, 5, 6, 7, 8, 10, 11, 12], "one bit makes no LabelLength above 250");
}

/// The full section with these bytes put into it.
fn with(put: &[(usize, &[u8])]) -> Vec<u8> {
    let mut bytes = full_section();
    for (at, put) in put {
        bytes[*at..at + put.len()].copy_from_slice(put);
    }
    bytes
}

#[test]
fn every_refusal_of_a_section() {
    // what is put into the full section
    let cases: [(usize, &[u8], Kind, usize); 16] = [
        (P + 53, &[1], Kind::InputShort, P),
        (0, &[0xA3], Kind::SenderKind, 0),
        (0, &[0xB1], Kind::AuOrAs, 0),
        (0, &[0x21], Kind::EmptyOrDpClear, 0),
        (2, &[0; 14], Kind::EmptyOrDpClear, 2),
        (10, &[1], Kind::CertificateSize, 8),
        (2, &[13], Kind::Identity, 2),
        (17, &[2], Kind::Identity, 2),
        (12, &[11], Kind::Provider, 0),
        (NAME + 2, &[0, 0], Kind::Provider, NAME + 2),
        (14, &[0x40], Kind::AboveTheLimit, 0),
        (P + 54, &[0x40], Kind::AboveTheLimit, P),
        (P + 1, &[251], Kind::LabelLength, P + 1),
        (P + 2, &[8, 0x80], Kind::Class, P + 2),
        (P + 36, &[0], Kind::Allocation, P + 36),
        (P + 58, &[0, 1], Kind::Label, P + 58),
    ];
    for (at, put, kind, place) in cases {
        assert_eq!(answer(&with(&[(at, put)]), SecurityHeader), Err(refused(kind, place)));
    }
}

/// What already passed counts only when its header, or its section, came whole.
#[test]
fn what_passed_of_a_cut_header_does_not_count() {
    let identity = with(&[(16, &[2])]);
    let name = with(&[(NAME, &[0, 0])]);
    let label = with(&[(P + 56, &[0, 0])]);
    let cases = [
        (&identity, P, 0, refused(Kind::Identity, 2)),
        (&name, P, 0, refused(Kind::Provider, NAME)),
        (&label, FULL_LENGTH, P, refused(Kind::Label, P + 56)),
    ];
    for (bytes, whole, start, refusal) in cases {
        for end in start..whole {
            assert_eq!(answer(&bytes[..end], SecurityHeader), Err(refused(Kind::InputShort, start)));
        }
        for end in whole..=bytes.len() {
            assert_eq!(answer(&bytes[..end], SecurityHeader), Err(refusal));
        }
    }
}

/// All that comes behind them is wrong too.
#[test]
fn the_first_step_that_fails_gives_the_refusal() {
    let steps: [(usize, &[u8], Kind, usize); 7] = [
        (P + 56, &[0, 0], Kind::Label, P + 56),
        (P + 36, &[0], Kind::Allocation, P + 36),
        (P + 2, &[8, 0x80], Kind::Class, P + 2),
        (NAME + 4, &[1], Kind::Provider, NAME + 4),
        (16, &[0], Kind::Identity, 2),
        (12, &[9], Kind::Provider, 0),
        (0, &[0xB3], Kind::SenderKind, 0),
    ];
    let mut put = vec![];
    for (at, wrong, kind, place) in steps {
        put.push((at, wrong));
        assert_eq!(answer(&with(&put), SecurityHeader), Err(refused(kind, place)));
    }
}

/// A section of which a provider with this name is the only part. Its type lies where an identity would begin.
fn named(units: &[u16], padding: u8) -> Vec<u8> {
    let name: Vec<u8> = units.iter().flat_map(|unit| unit.to_le_bytes()).collect();
    let size = 4 + name.len();
    let mut bytes = [&security(0x0080, [0; 3], 0, size as u32)[..], b"type", &name].concat();
    bytes.resize(16 + size.next_multiple_of(4), padding);
    bytes.extend([0; 56]);
    bytes
}

/// In these names zero bytes stand side by side in two units, and in one; beside each, its unit that breaks the rule.
#[test]
fn a_portion_may_split_a_unit_of_the_name() {
    let cases: [(&[u16], Option<usize>); 11] = [
        (&[0], None),
        (&[0x0100], Some(0)),
        (&[0x0001, 0x0100, 0x0001, 0], None),
        (&[0x0100, 0x0001, 0x0100, 0x0001, 0], None),
        (&[0xFF00, 0x00FF, 0], None),
        (&[0x0001, 0x0100], Some(1)),
        (&[0x0100, 0x0001], Some(1)),
        (&[0x0001, 0, 0], Some(1)),
        (&[0, 0, 0], Some(0)),
        (&[0x0100, 0, 0x0001, 0, 0x0001], Some(1)),
        (&[0x0001, 0x0100, 0, 0x0100], Some(2)),
    ];
    let kind = |summary: Summary<'_>| summary.security.unwrap().provider_type;
    for ((name, bad), padding) in cases.into_iter().flat_map(|case| [(case, 0), (case, b'?')]) {
        let wanted = match bad {
            None => Ok(Some(u32::from_le_bytes(*b"type"))),
            Some(unit) => Err(refused(Kind::Provider, 20 + 2 * unit)),
        };
        let bytes = named(name, padding);
        assert_eq!(answer(&bytes, SecurityHeader).map(kind), wanted, "{name:?}");
        for at in 0..=bytes.len() {
            let portions = [&bytes[..at], &[], &bytes[at..]];
            assert_eq!(fed(SecurityHeader, portions).finish().map(kind), wanted, "{name:?} cut at {at}");
        }
    }
}

#[test]
fn after_the_finish_nothing_changes() {
    let bytes = full_section();
    for (input, number) in [(&bytes[..], 0), (&bytes[..20], 1), (&with(&[(NAME, &[0, 0])]), 7), (&[], 1)] {
        let mut state = fed(SecurityHeader, input.chunks(7));
        let before = state.clone();
        assert_eq!(state.finish().map_or_else(|refusal| refusal.number, |_| 0), number);
        assert_ne!(state, before, "a refused finish is a finish");
        let finished = state.clone();
        for portion in [&[][..], b"x", &bytes] {
            assert_eq!(state.portion(portion), Err(AFTER_THE_FINISH));
            assert_eq!(state, finished);
            assert_eq!(state.finish(), Err(AFTER_THE_FINISH));
            assert_eq!(state, finished);
        }
    }
    assert_eq!(AFTER_THE_FINISH.kind(), Some(Kind::AfterTheFinish));
    assert_eq!(AFTER_THE_FINISH.to_string(), "refused with 14 at 0: portion or finish after the finish");
    assert_eq!(AFTER_THE_FINISH.field(&bytes, SecurityHeader), None, "it is about no field");
}

#[test]
fn a_clone_goes_on_by_itself() {
    let bytes = full_section();
    for at in 0..bytes.len() {
        let mut state = fed(SecurityHeader, [&bytes[..at]]);
        let mut back = state.clone();
        assert_eq!(state, back);
        assert_eq!(state.portion(&[0xFF; 200]), Ok(()));
        let other = [&bytes[..at], &[0xFF; 200]].concat();
        assert_eq!(state.finish(), in_one_go(&other, SecurityHeader));
        assert_eq!(back.portion(&bytes[at..]), Ok(()));
        assert_eq!(back.clone().finish(), in_one_go(&bytes, SecurityHeader));
        assert_eq!(back.finish(), in_one_go(&bytes, SecurityHeader), "its clone was finished, not this");
    }
}

/// More than 16,777,216 bytes behind a section, accepted or refused.
#[test]
fn bytes_behind_the_section_in_any_number() {
    let behind = vec![0xFF; LIMIT];
    let bytes = full_section();
    for input in [&bytes[..], &bytes[..FULL_LENGTH], &with(&[(P + 2, &[3])]), &with(&[(NAME, &[0, 0])])] {
        let mut state = fed(SecurityHeader, [input]);
        for _ in 0..6 {
            assert_eq!(state.portion(&behind), Ok(()));
            assert_eq!(state.clone().finish(), in_one_go(input, SecurityHeader));
        }
        assert_eq!(state.portion(&[0]), Ok(()));
        assert_eq!(state.finish(), in_one_go(input, SecurityHeader));
    }
    // a header that no number of bytes completes
    let header = security(0x0080, [0, 0, 0], 0, u32::MAX - 1);
    let mut state = fed(SecurityHeader, [&header[..]].into_iter().chain([&behind[..]; 5]));
    assert_eq!(state.finish(), Err(refused(Kind::AboveTheLimit, 0)));
}

#[test]
fn the_longest_sections() {
    let body = (LIMIT - 56) as u32;
    let mut bytes = properties(0, 0, 0, body, body);
    bytes.resize(LIMIT + 1, 0xAA);
    for (end, accepted) in [(LIMIT - 1, false), (LIMIT, true), (LIMIT + 1, true)] {
        let mut state = fed(PropertiesHeader, bytes[..end].chunks(65_537));
        assert_eq!(state.finish(), in_one_go(&bytes[..end], PropertiesHeader));
        assert_eq!(in_one_go(&bytes[..end], PropertiesHeader).is_ok(), accepted);
    }
    // a SecurityHeader of the limit, all of it a provider's name
    let mut bytes = security(0x0080, [0, 0, 0], 0, LIMIT as u32 - 16);
    bytes.extend(b"type");
    bytes.resize(LIMIT - 2, b'n');
    bytes.extend([0; 2 + 56]);
    let mut wrong = bytes.clone();
    wrong[LIMIT - 4..LIMIT - 2].fill(0);
    for (input, refusal) in [
        (&bytes[..LIMIT - 1], refused(Kind::InputShort, 0)),
        (&bytes[..LIMIT + 55], refused(Kind::InputShort, LIMIT)),
        (&bytes, refused(Kind::AboveTheLimit, LIMIT)),
        (&wrong[..LIMIT - 1], refused(Kind::InputShort, 0)),
        (&wrong, refused(Kind::Provider, LIMIT - 4)),
    ] {
        assert_eq!(fed(SecurityHeader, input.chunks(1_001)).finish(), Err(refusal));
        assert_eq!(summarize(input, SecurityHeader), Err(refusal));
    }
}

#[test]
fn the_longest_label_is_held() {
    let text = text_bytes(&"\u{100}".repeat(249));
    let mut bytes = [properties(250, 0, 3, 0, 0), text.clone(), b"ext?".to_vec()].concat();
    let mut state = fed(PropertiesHeader, bytes.chunks(3));
    assert_eq!(state.finish().unwrap().label.bytes(), text);
    assert_eq!(answer(&bytes, PropertiesHeader).unwrap().section_length, 560);
    bytes[554] = 1;
    assert_eq!(answer(&bytes, PropertiesHeader), Err(refused(Kind::Label, 554)));
    bytes[300..302].fill(0);
    assert_eq!(answer(&bytes, PropertiesHeader), Err(refused(Kind::Label, 300)));
}

#[test]
fn its_size_and_what_is_shown_of_it() {
    assert_eq!(size_of::<Portions>(), 664);
    let mut state = fed(SecurityHeader, [&full_section()[..]]);
    let shown = "Portions { first: SecurityHeader, received: 130, finished: false, .. }";
    assert_eq!(format!("{state:?}"), shown);
    assert!(state.finish().is_ok());
    assert_eq!(format!("{state:?}"), shown.replace("false", "true"));
}

/// What the example writes, and whether it says that the section is accepted.
fn shown(input: &[u8], first: First, bytes: u8) -> (String, bool) {
    let mut out = vec![];
    let bytes = NonZeroU8::new(bytes).expect("a portion has bytes");
    let accepted = example::show(input, first, bytes, &mut out).expect("a vector takes every line");
    (String::from_utf8(out).expect("the example writes text"), accepted)
}

#[test]
fn the_example_shows_what_summarize_says() {
    let path = format!("{}/../../samples/section.bin", env!("CARGO_MANIFEST_DIR"));
    let sample = fs::read(path).expect("the file is in the repository");
    let mut says = vec![];
    example::show_summary(&summarize(&sample, SecurityHeader).unwrap(), &mut says).unwrap();
    let says = String::from_utf8(says).unwrap();
    assert_eq!(
        says,
        "\
section length        156\n\
security flags        0x00a1\n\
signature             9 bytes\n\
provider              type 1, info of 14 bytes\n\
class                 0x0000\n\
label                 9 units, \"Window 7\"\n\
extension             5 bytes\n\
body                  8 bytes\n\
authentication fails  false\n\
decryption fails      false\n\
retired               false\n"
    );
    for bytes in 1..=u8::MAX {
        assert_eq!(shown(&sample, SecurityHeader, bytes), (says.clone(), true));
    }
    for end in 0..sample.len() {
        let refusal = summarize(&sample[..end], SecurityHeader).unwrap_err();
        assert_eq!(shown(&sample[..end], SecurityHeader, 5), (format!("{refusal}\n"), false));
    }
    let refusal = "refused with 10 at 2: MessageClass not listed\n".to_owned();
    assert_eq!(shown(&sample, PropertiesHeader, 1), (refusal, false));
}
