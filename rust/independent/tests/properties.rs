//! C-18: the times of a request, the properties of a section, and the read-back of the one as the other.

use std::collections::BTreeSet;

use independent::generate::{properties_case, request, Random};
use independent::properties::{Carried, Handling, Privacy, Properties, Provider, Sender, Units};
use independent::request::{defaulted, send, sent, Request};
use independent::{read, write_section, SectionValues, LABEL_MOST};

/// The times next to which a default may go wrong.
const TIMES: [u32; 9] = [0, 1, 2, 0xFFFF, 0x10000, 0x7FFFFFFF, 0x80000000, 0xFFFFFFFE, 0xFFFFFFFF];
/// No part of a SecurityHeader.
const BARE: SectionValues<'static> = SectionValues {
    security_first: false,
    security_flags: 0x0080,
    sender_id: &[],
    encryption_key: &[],
    signature: &[],
    sender_cert: &[],
    provider_info: &[],
    flags: 0,
    message_class: 0,
    correlation_id: [0; 20],
    body_type: 0,
    application_tag: 0,
    allocation_body_size: 0,
    privacy_level: 0,
    hash_algorithm: 0,
    encryption_algorithm: 0,
    label: &[],
    extension: &[],
    body: &[],
};
/// A SecurityHeader with a key alone.
const KEY: SectionValues<'static> = SectionValues { security_first: true, encryption_key: b"key", ..BARE };

/// The section of these values, with bytes behind it.
fn written(values: &SectionValues) -> Vec<u8> {
    let mut out = vec![0xEE; 2_000];
    write_section(values, &mut out).unwrap();
    out
}

/// The properties of a section.
fn properties(input: &[u8], security_first: bool) -> Properties<'_> {
    Properties::of(&read(input, security_first).unwrap())
}

/// The same with other times.
fn with_times<'a>(request: &Request<'a>, time_to_queue: u32, time_to_live: u32) -> Request<'a> {
    Request { time_to_queue, time_to_live, ..*request }
}

#[test]
fn only_a_time_to_queue_of_0_is_defaulted() {
    for given in TIMES {
        for live in TIMES {
            let request = with_times(&Request::default(), given, live);
            let handling = defaulted(&request).unwrap().handling.unwrap();
            let queue = if given == 0 { 0xFFFFFFFF } else { given };
            assert_eq!((handling.time_to_queue, handling.time_to_live), (queue, live));
        }
    }
}

/// The steps do not look at the times, and the section writer does not get them.
#[test]
fn nothing_else_depends_on_the_times() {
    let mut r = Random::new(41);
    for _ in 0..5_000 {
        let owned = request(&mut r);
        let request = owned.as_request();
        let answer = |request: &Request| {
            let mut out = vec![0x55; owned.room];
            (send(request, &mut out), out)
        };
        let wanted = (answer(&request), defaulted(&request), sent(&request));
        for (queue, live) in [(0, 0), (1, 0xFFFFFFFF), (!request.time_to_queue, !request.time_to_live)] {
            let other = with_times(&request, queue, live);
            let restored = defaulted(&other).map(|properties| {
                let times = wanted.1.unwrap().handling.unwrap();
                let Handling { time_to_queue, time_to_live, .. } = times;
                let handling = Handling { time_to_queue, time_to_live, ..properties.handling.unwrap() };
                Properties { handling: Some(handling), ..properties }
            });
            assert_eq!((answer(&other), restored, sent(&other)), wanted);
        }
    }
}

#[test]
fn a_section_without_a_security_header() {
    let values = SectionValues {
        flags: 0xF5,
        message_class: 0x8009,
        correlation_id: *b"twenty bytes of them",
        body_type: 8,
        application_tag: 0xAABBCCDD,
        allocation_body_size: 9,
        privacy_level: 3,
        hash_algorithm: 0x800C,
        encryption_algorithm: 0x6610,
        label: b"a\0\0b\0\0",
        extension: b"ext",
        body: b"body",
        ..BARE
    };
    let carried = Carried {
        class: 0x8009,
        acknowledge: 5,
        application_tag: 0xAABBCCDD,
        privacy_level: Privacy::Request(2),
        hash_algorithm: 0x800C,
        encryption_algorithm: 0x6610,
        body_type: 8,
        allocation: 9,
        correlation_id: *b"twenty bytes of them",
        title: Units::Given(&[0x61, 0x6200]),
        sender_id: &[],
        encryption_key: &[],
        signature: &[],
        sender_cert: &[],
        extension: b"ext",
        body: b"body",
    };
    let wanted = Properties { handling: None, sender: None, provider: None, carried };
    assert_eq!(properties(&written(&values), false), wanted);
}

#[test]
fn a_section_with_a_security_header() {
    let sid = [1, 1, 0, 0, 0, 0, 0, 5, 9, 9, 9, 9];
    let info = b"\x18\0\0\x01c\0s\0p\0\0\0";
    let values = SectionValues {
        security_first: true,
        security_flags: 0xF0A1,
        sender_id: &sid,
        encryption_key: b"key",
        signature: b"signature",
        sender_cert: b"certificate",
        provider_info: info,
        ..BARE
    };
    let input = written(&values);
    let Properties { handling, sender, provider, carried } = properties(&input, true);
    assert_eq!(handling, None);
    assert_eq!(sender, Some(Sender { kind: 1, default_provider: false, encryption: true }));
    let name = Units::Given(&[0x63, 0x73, 0x70]);
    assert_eq!(provider, Some(Provider { kind: 0x01000018, name }));
    assert_eq!((carried.sender_id, carried.encryption_key), (&sid[..], &b"key"[..]));
    assert_eq!((carried.signature, carried.sender_cert), (&b"signature"[..], &b"certificate"[..]));
}

/// ST, DE and EB are known as they lie, whatever the parts are.
#[test]
fn the_sender_is_known_where_a_security_header_stands_first() {
    assert_eq!(properties(&written(&BARE), false).sender, None);
    for bits in 0..4 {
        let (default_provider, encryption) = (bits & 1 != 0, bits & 2 != 0);
        let security_flags =
            0x80 | if default_provider { 0x40 } else { 0 } | if encryption { 0x20 } else { 0 };
        let certificate = SectionValues { encryption_key: &[], sender_cert: b"c", security_flags, ..KEY };
        let identity = SectionValues {
            encryption_key: &[],
            sender_id: &[0; 16],
            security_flags: security_flags | 2,
            ..KEY
        };
        for (values, kind) in [(SectionValues { security_flags, ..KEY }, 0), (certificate, 0), (identity, 2)]
        {
            let wanted = Some(Sender { kind, default_provider, encryption });
            assert_eq!(properties(&written(&values), true).sender, wanted);
        }
    }
}

/// With a signature or without one; the name may be the null alone.
#[test]
fn the_provider_is_known_where_provider_info_is_not_empty() {
    assert_eq!(properties(&written(&BARE), false).provider, None);
    assert_eq!(properties(&written(&KEY), true).provider, None);
    let by_default = SectionValues { security_flags: 0x00C0, signature: b"s", ..KEY };
    assert_eq!(properties(&written(&by_default), true).provider, None);
    for (info, signature, kind, name) in [
        (&b"\0\0\0\0\0\0"[..], &b""[..], 0, &[][..]),
        (b"\x01\0\0\0p\0\0\0", b"", 1, &[0x70]),
        (b"\0\0\0\x80p\0\0\0", b"s", 0x80000000, &[0x70]),
    ] {
        let values = SectionValues { provider_info: info, signature, ..KEY };
        let wanted = Some(Provider { kind, name: Units::Given(name) });
        assert_eq!(properties(&written(&values), true).provider, wanted);
    }
}

#[test]
fn privacy_is_the_requests_or_the_packets() {
    let privacy = |privacy_level| {
        let input = written(&SectionValues { privacy_level, ..BARE });
        properties(&input, false).carried.privacy_level
    };
    for (level, request) in [(0, 0), (1, 1), (3, 2)] {
        assert_eq!(privacy(level), Privacy::Request(request));
        assert_eq!(Privacy::Request(request).packet_level(), level);
    }
    for level in [2, 4, 5, 6, 7, 0x100, 0x101, 0x103, 0x10003, 0x80000001, 0xFFFFFFFF] {
        assert_eq!(privacy(level), Privacy::Packet(level));
        assert_eq!(Privacy::Packet(level).packet_level(), level);
    }
}

#[test]
fn a_title_is_the_label_without_its_null() {
    for length in [0, 1, 2, 3, 249, LABEL_MOST.into()] {
        let title: Vec<u16> = (1..length).collect();
        let null: &[u16] = if length == 0 { &[] } else { &[0] };
        let label: Vec<u8> = title.iter().chain(null).flat_map(|unit| unit.to_le_bytes()).collect();
        let input = written(&SectionValues { label: &label, ..BARE });
        let found = properties(&input, false).carried.title;
        assert_eq!((found, found.count()), (Units::Given(&title), title.len()));
    }
}

#[test]
fn units_are_equal_where_each_of_them_is() {
    let given = Units::Given(&[1, 0x200]);
    assert_eq!(given, Units::Read(&[1, 0, 0, 2]));
    for other in [&[1, 0, 0, 2, 3, 0][..], &[1, 0], &[1, 0, 2, 0], &[]] {
        assert_ne!(given, Units::Read(other));
    }
    assert_eq!(format!("{:?}", Units::Read(&[1, 0, 0, 2])), "[1, 512]");
}

/// "For a legal request, the properties made from its section equal its defaulted properties in all that 01
/// says a section carries, and are not known in exactly the rest."
#[test]
fn what_is_sent_reads_back_as_the_properties_that_it_carries() {
    let (mut r, mut met) = (Random::new(42), BTreeSet::new());
    for _ in 0..20_000 {
        let owned = request(&mut r);
        let mut out = vec![0x55; owned.room];
        if send(&owned.as_request(), &mut out).is_err() {
            continue;
        }
        let whole = defaulted(&owned.as_request()).unwrap();
        let security_first = sent(&owned.as_request()).unwrap().security_first;
        let by_another = !whole.carried.signature.is_empty() && !whole.sender.unwrap().default_provider;
        let wanted = Properties {
            handling: None,
            sender: whole.sender.filter(|_| security_first),
            provider: whole.provider.filter(|_| by_another),
            ..whole
        };
        assert!(whole.handling.is_some() && whole.provider.is_some());
        assert_eq!(properties(&out, security_first), wanted);
        met.insert((
            wanted.sender.is_some(),
            wanted.provider.is_some(),
            wanted.carried.privacy_level.packet_level(),
        ));
    }
    let wanted = [(false, false), (true, false), (true, true)];
    assert_eq!(met, wanted.into_iter().flat_map(|(a, b)| [(a, b, 0), (a, b, 3)]).collect());
}

/// Each group known and not known, each privacy, and titles of each kind come up among the cases.
#[test]
fn generated_sections() {
    let (mut r, mut met, mut refused) = (Random::new(43), BTreeSet::new(), BTreeSet::new());
    for _ in 0..20_000 {
        let case = properties_case(&mut r);
        match read(&case.bytes, case.security_first) {
            Ok(section) => {
                let Properties { sender, provider, carried, .. } = Properties::of(&section);
                let level = match carried.privacy_level {
                    Privacy::Request(level) => Some(level),
                    Privacy::Packet(_) => None,
                };
                met.insert((sender.is_some(), provider.is_some(), level));
            }
            Err(refusal) => {
                refused.insert(refusal.number);
            }
        }
    }
    assert_eq!((met.len(), refused), (3 * 4, (1..=12).collect()));
}
