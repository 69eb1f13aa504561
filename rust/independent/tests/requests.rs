//! Send requests: defaults, steps in their order, and the section that is sent.

use independent::generate::{request, Random};
use independent::properties::{Privacy, Properties, Units};
use independent::request::{defaulted, send, sent, Request};
use independent::{number, read, Refusal, Section, LIMIT};

/// The refusal's number, or 0; a refusal has place 0 and leaves the output as it stood.
fn answer(request: &Request) -> u32 {
    let mut out = vec![0x55; 300_000];
    match send(request, &mut out) {
        Ok(_) => 0,
        Err(Refusal { number, place }) => {
            assert_eq!(place, 0);
            assert!(out.iter().all(|&byte| byte == 0x55));
            assert_eq!(defaulted(request).unwrap_err().number, number);
            number
        }
    }
}

/// A request signed by another provider.
fn signed() -> Request<'static> {
    Request {
        signature: b"signature",
        hash_algorithm: Some(0x8004),
        provider_type: Some(9),
        provider_name: &[0x63, 0x73, 0x70],
        ..Request::default()
    }
}

#[test]
fn an_absent_value_gets_its_default() {
    let Properties { handling, sender, provider, carried } = defaulted(&Request::default()).unwrap();
    let handling = handling.unwrap();
    assert_eq!(handling.priority, 3);
    let zeros = [
        handling.trace,
        handling.delivery,
        handling.auditing,
        carried.class,
        carried.acknowledge,
        carried.application_tag,
        carried.hash_algorithm,
        carried.encryption_algorithm,
        carried.body_type,
        provider.unwrap().kind,
        sender.unwrap().kind,
    ];
    assert_eq!(zeros, [0; 11]);
    assert_eq!(carried.privacy_level, Privacy::Request(0));
    assert_eq!((carried.correlation_id, carried.allocation), ([0; 20], 0));
    let mut out = [0x55; 60];
    assert_eq!(send(&Request::default(), &mut out), Ok(56));
    assert_eq!((&out[..56], &out[56..]), (&[0; 56][..], &[0x55; 4][..]));
}

#[test]
fn step_1() {
    let none = Request::default();
    for over in [0, 1, 249, 256, u32::MAX - 15] {
        let expected = if over == 0 { 0 } else { number::RANGE };
        let requests = [
            Request { priority: Some(7 + over), ..none },
            Request { trace: Some(1 + over), ..none },
            Request { delivery: Some(1 + over), transaction: true, ..none },
            Request { acknowledge: Some(15 + over), ..none },
            Request { auditing: Some(3 + over), ..none },
        ];
        for request in requests {
            assert_eq!(answer(&request), expected);
            assert_eq!(answer(&Request { class: Some(3), ..request }), expected.max(number::CLASS));
        }
    }
    for class in [0x8008, 0x1_0000, 0x1_8009] {
        assert_eq!(answer(&Request { class: Some(class), privacy_level: Some(3), ..none }), number::CLASS);
    }
    for delivery in [None, Some(0), Some(1)] {
        let request = Request { delivery, transaction: true, ..none };
        assert_eq!(defaulted(&request).unwrap().handling.unwrap().delivery, 1);
    }
}

#[test]
fn step_2() {
    let none = Request::default();
    let private = |level| Request { privacy_level: Some(level), ..none };
    let known = |level| Request { encryption_algorithm: Some(0x6801), ..private(level) };
    for level in 0..3 {
        assert_eq!(answer(&private(level)), number::ALGORITHM_ABSENT);
        assert_eq!(answer(&known(level)), if level == 1 { number::RETIRED } else { 0 });
        let direct = Request { direct_queue: true, ..known(level) };
        assert_eq!(answer(&direct), if level == 0 { 0 } else { number::DIRECT_PRIVACY });
    }
    for level in [3, 5, 256, u32::MAX] {
        assert_eq!(answer(&Request { direct_queue: true, ..private(level) }), number::PRIVACY);
    }
    assert_eq!(answer(&Request { direct_queue: true, ..private(1) }), number::DIRECT_PRIVACY);
    assert_eq!(answer(&Request { signature: b"s", ..private(1) }), number::ALGORITHM_ABSENT);
    assert_eq!(answer(&Request { signature: b"s", sender_kind: Some(3), ..none }), number::HASH_ABSENT);
    assert_eq!(answer(&Request { direct_queue: true, encryption: true, encryption_key: b"k", ..none }), 0);
}

/// C-21's 29: of privacy 1 alone, and of MD2, MD4 and MD5 with signature bytes alone.
#[test]
fn retired_requests() {
    let known =
        |level| Request { privacy_level: Some(level), encryption_algorithm: Some(0x6801), ..signed() };
    let hashed = |hash| Request { hash_algorithm: Some(hash), ..signed() };
    assert_eq!([0, 1, 2].map(|level| answer(&known(level))), [0, number::RETIRED, 0]);
    for hash in [0x8001, 0x8002, 0x8003] {
        for signature in [&b"s"[..], b"si"] {
            let cut = Request { signature, split_number: Some(1), ..hashed(hash) };
            assert_eq!(answer(&cut), number::RETIRED);
            assert_eq!(answer(&Request { split_number: None, ..cut }), number::RETIRED);
        }
        assert_eq!(answer(&Request { signature: b"", ..hashed(hash) }), 0, "without signature bytes");
    }
    for hash in [0, 1, 0x8000, 0x8004, 0x8005, 0x800C, 0x800E, 0x18001, 0x80008003] {
        assert_eq!(answer(&hashed(hash)), 0, "{hash:#x}");
    }
}

/// 29 comes "right after 24", and before step 3.
#[test]
fn retired_requests_after_24_and_before_25() {
    let privacy = Request { privacy_level: Some(1), encryption_algorithm: Some(0x6801), ..signed() };
    let hash = Request { hash_algorithm: Some(0x8003), ..signed() };
    assert_eq!(answer(&Request { direct_queue: true, ..privacy }), number::DIRECT_PRIVACY);
    assert_eq!(answer(&Request { encryption_algorithm: None, ..privacy }), number::ALGORITHM_ABSENT);
    assert_eq!(answer(&Request { privacy_level: Some(0), ..hash }), number::ALGORITHM_ABSENT);
    assert_eq!(answer(&Request { hash_algorithm: None, ..privacy }), number::HASH_ABSENT);
    let long = vec![1; 65_536];
    for retired in [privacy, hash] {
        let kind = Request { sender_kind: Some(3), ..retired };
        let name = Request { provider_name: &[], ..retired };
        let split = Request { split_number: Some(0), ..retired };
        let part = Request { sender_cert: &long, ..retired };
        let allocation = Request { body: Some((b"body", 3)), ..retired };
        for request in [kind, name, split, part, allocation] {
            assert_eq!(answer(&request), number::RETIRED);
        }
    }
}

#[test]
fn step_3() {
    let sid = [1, 2, 0, 0, 0, 0, 0, 5, 1, 2, 3, 4, 5, 6, 7, 8];
    let longest = [&[1, 15][..], &[0; 66]].concat();
    let longer = [&[1, 16][..], &[0; 70]].concat();
    let table: [(Option<u32>, &[u8], bool); 14] = [
        (Some(1), &longest, true),
        (Some(1), &longer, false),
        (None, &[], true),
        (None, &sid, false),
        (Some(0), &[], true),
        (Some(0), &[1], false),
        (Some(1), &sid, true),
        (Some(1), &sid[..15], false),
        (Some(1), &sid[..12], false),
        (Some(1), &[], false),
        (Some(2), &sid, true),
        (Some(2), &sid[..15], false),
        (Some(3), &[], false),
        (Some(0x1_0001), &sid, false),
    ];
    for (sender_kind, sender_id, passes) in table {
        let request = Request { sender_kind, sender_id, ..Request::default() };
        assert_eq!(answer(&request), if passes { 0 } else { number::REQUEST_IDENTITY });
        // Before step 4.
        let request = Request { provider_name: &[], sender_kind, sender_id, ..signed() };
        let expected = if passes { number::REQUEST_PROVIDER } else { number::REQUEST_IDENTITY };
        assert_eq!(answer(&request), expected);
    }
}

#[test]
fn step_4() {
    let name = [0x61; 1_025];
    for (units, passes) in [(0, false), (1, true), (1_024, true), (1_025, false)] {
        let request = Request { provider_name: &name[..units], ..signed() };
        assert_eq!(answer(&request), if passes { 0 } else { number::REQUEST_PROVIDER });
        let unsigned = Request { signature: b"", split_number: Some(0), ..request };
        assert_eq!(answer(&unsigned), 0);
    }
    for name in [[0, 1, 1], [1, 0, 1], [1, 1, 0]] {
        assert_eq!(answer(&Request { provider_name: &name, ..signed() }), number::REQUEST_PROVIDER);
    }
    for (provider_type, passes) in [(None, false), (Some(0), false), (Some(1), true), (Some(2), false)] {
        let request = Request { default_provider: true, provider_name: &[0], provider_type, ..signed() };
        assert_eq!(answer(&request), if passes { 0 } else { number::REQUEST_PROVIDER });
    }
    let absent_type = Request { provider_type: None, ..signed() };
    assert_eq!(defaulted(&absent_type).unwrap().provider.unwrap().kind, 0);
}

#[test]
fn step_5() {
    let split = |split_number, provider_name_length| Request {
        split_number: Some(split_number),
        provider_name_length,
        ..signed()
    };
    for (request, cut) in [
        (split(1, 0), &b"e"[..]),
        (split(9, 0), b"signature"),
        (split(104, 100), b"ture"),
        (split(u32::MAX, u32::MAX - 2), b"re"),
    ] {
        assert_eq!(defaulted(&request).unwrap().carried.signature, cut);
    }
    for request in
        [split(0, 0), split(10, 0), split(3, 3), split(3, 4), split(3, u32::MAX), split(0, u32::MAX)]
    {
        assert_eq!(answer(&request), number::SPLIT);
        let (body, long): (&[u8], _) = (b"body", vec![1; 65_536]);
        let request = Request { sender_cert: &long, body: Some((body, 0)), ..request };
        assert_eq!(answer(&request), number::SPLIT);
    }
    let without = Request { split_number: None, provider_name_length: 77, ..signed() };
    assert_eq!(defaulted(&without).unwrap().carried.signature, b"signature");
}

#[test]
fn step_6() {
    let long = vec![1; 65_544];
    let (body, none): (&[u8], _) = (b"body", Request::default());
    for (length, expected) in [(65_535, number::ALLOCATION), (65_536, number::PART_SIZE)] {
        let part = &long[..length];
        let wrong = Request { body: Some((body, 3)), ..none };
        assert_eq!(answer(&Request { encryption_key: part, ..wrong }), expected);
        assert_eq!(answer(&Request { sender_cert: part, ..wrong }), expected);
        let request = Request { signature: part, body: wrong.body, ..signed() };
        assert_eq!(answer(&request), expected);
        let cut = Request { signature: &long, split_number: Some(length as u32), ..request };
        assert_eq!(answer(&cut), expected);
    }
    for (allocation, expected) in [
        (3, number::ALLOCATION),
        (4, 0),
        (LIMIT, 0),
        (LIMIT + 1, number::ALLOCATION),
        ((1 << 32) + 4, number::ALLOCATION),
    ] {
        assert_eq!(answer(&Request { body: Some((body, allocation)), ..none }), expected);
    }
    let empty = Request { body: Some((&[], 9)), ..none };
    assert_eq!(defaulted(&empty).unwrap().carried.allocation, 9);
    let zeros = vec![0; LIMIT as usize - 55];
    assert_eq!(answer(&Request { extension: &zeros, ..none }), number::LIMIT);
    let wrong = Request { extension: &zeros, body: Some((body, 3)), ..none };
    assert_eq!(answer(&wrong), number::ALLOCATION);
    let mut out = [0x55; 55];
    assert_eq!(send(&none, &mut out), Err(Refusal { number: number::OUTPUT_SHORT, place: 0 }));
    assert_eq!(out, [0x55; 55]);
}

#[test]
fn titles_are_cut_at_the_first_zero_then_at_249() {
    let mut title = vec![0x61; 300];
    for (zero, units) in [(0, 0), (1, 1), (248, 248), (249, 249), (250, 249)] {
        title.fill(0x61);
        title[zero] = 0;
        let request = Request { title: &title, ..Request::default() };
        assert_eq!(defaulted(&request).unwrap().carried.title, Units::Given(&vec![0x61; units]));
    }
}

#[test]
fn privacy_2_is_3_in_the_packet() {
    for (privacy, packet) in [(0, 0), (2, 3)] {
        let request = Request {
            privacy_level: Some(privacy),
            encryption_algorithm: Some(0x6610),
            ..Request::default()
        };
        let mut out = [0; 56];
        send(&request, &mut out).unwrap();
        assert_eq!(read(&out, false).unwrap().summary.properties.privacy, packet);
        assert_eq!(defaulted(&request).unwrap().carried.privacy_level, Privacy::Request(privacy));
    }
}

#[test]
fn marks_in_the_security_flags() {
    let flags = |request: Request| {
        let mut out = [0; 200];
        send(&request, &mut out).unwrap();
        read(&out, true).unwrap().summary.security.unwrap().flags.bits()
    };
    let key = Request { encryption_key: b"k", ..Request::default() };
    assert_eq!(flags(key), 0x80);
    assert_eq!(flags(Request { encryption: true, ..key }), 0xA0);
    assert_eq!(flags(Request { default_provider: true, ..key }), 0xC0);
    assert_eq!(flags(Request { sender_cert: b"c", encryption_key: b"", encryption: true, ..key }), 0x80);
    assert_eq!(flags(Request { sender_kind: Some(2), sender_id: &[0; 16], ..key }), 0x82);
}

fn with_null(units: Units) -> Vec<u8> {
    units.iter().chain([0]).flat_map(u16::to_le_bytes).collect()
}

/// That `section` carries every defaulted value.
fn carries(section: &Section, properties: &Properties) {
    let (judged, carried) = (section.summary.properties, properties.carried);
    assert_eq!(u32::from(judged.class), carried.class);
    assert_eq!(u32::from(judged.flags), carried.acknowledge);
    assert_eq!(section.correlation_id, &carried.correlation_id);
    assert_eq!(section.application_tag, carried.application_tag);
    assert_eq!(judged.body_type, carried.body_type);
    assert_eq!(judged.privacy, if carried.privacy_level == Privacy::Request(2) { 3 } else { 0 });
    assert_eq!((judged.hash, judged.encryption), (carried.hash_algorithm, carried.encryption_algorithm));
    assert_eq!((section.extension, section.body), (carried.extension, carried.body));
    assert_eq!(u64::from(judged.allocation), carried.allocation);
    let label = if carried.title.count() == 0 { vec![] } else { with_null(carried.title) };
    assert_eq!(judged.label, label);
    assert_eq!((section.identity, section.key), (carried.sender_id, carried.encryption_key));
    assert_eq!((section.signature, section.certificate), (carried.signature, carried.sender_cert));
    if let Some(security) = section.summary.security {
        let (sender, provider) = (properties.sender.unwrap(), properties.provider.unwrap());
        assert_eq!(u32::from(security.flags.sender_kind()), sender.kind);
        assert_eq!(security.flags.default_provider(), sender.default_provider);
        assert_eq!(security.flags.body_encrypted(), sender.encryption);
        let named = !carried.signature.is_empty() && !sender.default_provider;
        assert_eq!(security.provider_type, named.then_some(provider.kind));
        assert_eq!(security.provider_name, if named { with_null(provider.name) } else { vec![] });
    }
}

#[test]
fn what_is_sent_reads_back_as_the_defaulted_values() {
    let mut r = Random::new(31);
    let mut count = 0;
    for _ in 0..30_000 {
        let owned = request(&mut r);
        let mut out = vec![0x55; owned.room];
        match send(&owned.as_request(), &mut out) {
            Ok(length) => {
                let properties = defaulted(&owned.as_request()).unwrap();
                let sent = sent(&owned.as_request()).unwrap();
                assert_eq!(length, sent.length);
                let section = read(&out[..length], sent.security_first).unwrap();
                carries(&section, &properties);
                assert!(!section.summary.retired);
                assert!(out[length..].iter().all(|&byte| byte == 0x55));
                count += 1;
            }
            Err(refusal) => {
                assert_eq!(refusal.place, 0);
                assert!(out.iter().all(|&byte| byte == 0x55));
            }
        }
    }
    assert!(count > 6_000);
}
