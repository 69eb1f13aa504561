//! 01's example 11, the steps of a send request in their order, and what a section carries of its defaulted
//! values.

use ugbariteyo::{
    defaulted, read, send, send_vec, Body, First, Kind, Privacy, PropertiesFlags, Refusal, Request,
    SecurityFlags, Units, LIMIT,
};

#[path = "given/request.rs"]
mod given_request;

use given_request::{full, units, ABSENT, SID};

fn refused(kind: Kind) -> Refusal {
    Refusal { number: kind as u32, place: 0 }
}

#[test]
fn example_11_titles() {
    for (length, label) in [(0, 0), (1, 2), (248, 249), (249, 250), (250, 250), (300, 250)] {
        let title = vec![0x61; length];
        let (section, first) = send_vec(&Request { title: &title, ..ABSENT }).unwrap();
        assert_eq!(first, First::PropertiesHeader);
        assert_eq!(read(&section, first).unwrap().label_length(), Units(label));
    }
    let cut = [0x61, 0, 0x62];
    let request = Request { title: &cut, ..ABSENT };
    assert!(defaulted(&request).unwrap().title.units().eq([0x61]));
    let (section, first) = send_vec(&request).unwrap();
    assert_eq!(read(&section, first).unwrap().label_text().to_string(), "a");
    let empty = Request { title: &cut[1..], ..ABSENT };
    assert_eq!(send_vec(&empty), Ok((vec![0; 56], First::PropertiesHeader)));
}

#[test]
fn an_absent_value_gets_its_default() {
    let properties = defaulted(&ABSENT).unwrap();
    let handling = properties.handling.unwrap();
    assert_eq!((handling.priority, handling.trace, handling.delivery, handling.auditing), (3, 0, 0, 0));
    assert_eq!((handling.transaction, handling.direct_queue, handling.split_number), (false, false, None));
    assert_eq!((handling.time_to_queue, handling.time_to_live), (60, 3_600));
    let sender = properties.sender.unwrap();
    assert_eq!((sender.kind, sender.default_provider, sender.encryption), (0, false, false));
    assert_eq!((properties.provider_type, properties.message_class, properties.acknowledge), (Some(0), 0, 0));
    assert_eq!((properties.application_tag, properties.privacy_level), (0, Privacy::Request(0)));
    assert_eq!((properties.hash_algorithm, properties.encryption_algorithm, properties.body_type), (0, 0, 0));
    assert_eq!((properties.message_size, properties.allocation_body_size), (0, 0));
    assert_eq!(
        (properties.correlation_id, properties.title.length(), properties.signature.len()),
        ([0; 20], Units(0), 0)
    );
    assert_eq!(send_vec(&ABSENT), Ok((vec![0; 56], First::PropertiesHeader)));

    let transaction = Request { transaction: true, delivery: Some(0), ..ABSENT };
    assert_eq!(defaulted(&transaction).unwrap().handling.unwrap().delivery, 1);
    let no_key = Request { encryption: true, ..ABSENT };
    assert!(!defaulted(&no_key).unwrap().sender.unwrap().encryption);
}

/// Only a time to queue of 0 is not passed on as given. Whatever the times are, the section has the same bytes, and all
/// other properties are the same.
#[test]
fn times_travel_with_the_properties() {
    let (title, name) = (units("Rope 7"), units("Provider"));
    let good = full(&title, &name);
    let queue = [(0, u32::MAX), (1, 1), (600, 600), (u32::MAX - 1, u32::MAX - 1), (u32::MAX, u32::MAX)];
    for (time_to_queue, kept) in queue {
        for time_to_live in [0, 1, 600, 86_400, u32::MAX - 1, u32::MAX] {
            let request = Request { time_to_queue, time_to_live, ..good };
            let mut wanted = defaulted(&good).unwrap();
            let handling = wanted.handling.as_mut().unwrap();
            (handling.time_to_queue, handling.time_to_live) = (kept, time_to_live);
            assert_eq!(defaulted(&request), Ok(wanted));
            assert_eq!(send_vec(&request), send_vec(&good));
            assert_eq!(send_vec(&Request::new(time_to_queue, time_to_live)), send_vec(&ABSENT));
        }
    }
    let shown = format!("{good:?} {:?}", defaulted(&good));
    assert_eq!(shown.matches("time_to_queue: 600, time_to_live: 86400").count(), 2, "{shown}");
}

#[test]
fn a_section_carries_the_defaulted_values() {
    let (title, name) = (units("Rope 7"), units("Provider"));
    let request = full(&title, &name);
    let properties = defaulted(&request).unwrap();
    assert_eq!(properties.signature, b"igned");
    assert_eq!(properties.handling.unwrap().delivery, 1);
    assert_eq!(properties.privacy_level, Privacy::Request(2));

    let (bytes, first) = send_vec(&request).unwrap();
    let section = read(&bytes, first).unwrap();
    assert_eq!(first, First::SecurityHeader);
    assert_eq!(section.section_length(), bytes.len());
    assert_eq!(section.security_flags(), SecurityFlags(0x00A1));
    assert_eq!((section.sender_id(), section.encryption_key()), (&SID[..], &b"key"[..]));
    assert_eq!((section.signature(), section.sender_cert()), (&b"igned"[..], &b"cert."[..]));
    assert_eq!(
        (section.provider_type(), section.provider_name().to_string()),
        (Some(24), "Provider".to_owned())
    );
    assert_eq!(section.flags(), PropertiesFlags(15));
    assert_eq!((section.message_class(), section.correlation_id()), (0x8009, &[7; 20]));
    assert_eq!(
        (section.application_tag(), section.body_type(), section.privacy_level()),
        (0xDEAD_BEEF, 8, 3)
    );
    assert_eq!((section.hash_algorithm(), section.encryption_algorithm()), (0x800C, 0x6610));
    assert_eq!(section.label_text().to_string(), "Rope 7");
    assert_eq!(
        (section.extension(), section.body(), section.allocation_body_size()),
        (&b"ext"[..], &b"body"[..], 6)
    );

    let default = Request { default_provider: true, provider_type: Some(1), ..request };
    let (bytes, first) = send_vec(&default).unwrap();
    let section = read(&bytes, first).unwrap();
    assert_eq!((section.security_flags(), section.provider_info()), (SecurityFlags(0x00E1), &b""[..]));
}

#[test]
fn steps_in_their_order() {
    let (title, name) = (units("Rope 7"), units("Provider"));
    let (long, huge) = (vec![1; 65_536], vec![1; LIMIT]);
    let (long_name, zero_name) = (vec![0x61; 1_025], [0x61, 0, 0x61]);
    let mut request = full(&title, &name);
    // the last step that fails stays while those before it are added
    type Fail = fn(&mut Request<'_>);
    let steps: [(Kind, Fail); 10] = [
        (Kind::Allocation, |r| r.body = Some(Body { bytes: b"body", allocation: 3 })),
        (Kind::SplitNumber, |r| r.split_number = Some(4)),
        (Kind::RequestProvider, |r| r.provider_name = &[]),
        (Kind::RequestIdentity, |r| r.sender_kind = Some(2)),
        (Kind::Retired, |r| r.privacy_level = Some(1)),
        (Kind::HashAbsent, |r| r.hash_algorithm = None),
        (Kind::AlgorithmAbsent, |r| r.encryption_algorithm = None),
        (Kind::PrivacyOnADirectQueue, |r| r.direct_queue = true),
        (Kind::Privacy, |r| r.privacy_level = Some(3)),
        (Kind::Class, |r| r.message_class = Some(0x1_0000)),
    ];
    for (kind, fail) in steps {
        fail(&mut request);
        check(&request, kind);
    }
    request.priority = Some(8);
    check(&request, Kind::ValueOutOfRange);

    let good = full(&title, &name);
    for request in [
        Request { trace: Some(2), ..good },
        Request { delivery: Some(2), ..good },
        Request { acknowledge: Some(16), ..good },
        Request { auditing: Some(4), ..good },
    ] {
        check(&request, Kind::ValueOutOfRange);
    }
    for request in [
        Request { sender_kind: Some(3), ..good },
        Request { sender_kind: None, ..good },
        Request { sender_id: &[2; 12], ..good },
    ] {
        check(&request, Kind::RequestIdentity);
    }
    for request in [
        Request { provider_name: &long_name, ..good },
        Request { provider_name: &zero_name, ..good },
        Request { default_provider: true, ..good },
        Request { default_provider: true, provider_type: None, ..good },
    ] {
        check(&request, Kind::RequestProvider);
    }
    for request in [
        Request { split_number: Some(3), ..good },
        Request { split_number: Some(15), ..good },
        Request { split_number: Some(0), provider_name_length: u32::MAX, ..good },
    ] {
        check(&request, Kind::SplitNumber);
    }
    for request in [
        Request { encryption_key: &long, ..good },
        Request { signature: &long, split_number: None, ..good },
        Request { sender_cert: &long, ..good },
    ] {
        check(&request, Kind::PartTooLarge);
    }
    check(&Request { extension: &huge, ..good }, Kind::AboveTheLimit);
    check(&Request { body: Some(Body { bytes: b"", allocation: LIMIT + 1 }), ..good }, Kind::Allocation);
    assert!(send_vec(&Request { signature: &long, ..good }).is_ok(), "the split comes before the size");
}

#[test]
fn what_is_retired_is_not_sent() {
    let (title, name) = (units("Rope 7"), units("Provider"));
    let good = full(&title, &name);
    check(&Request { privacy_level: Some(1), ..good }, Kind::Retired);
    for hash in 0x7FFF..0x8010 {
        let signed = Request { hash_algorithm: Some(hash), ..good };
        if [0x8001, 0x8002, 0x8003].contains(&hash) {
            check(&signed, Kind::Retired);
            check(&Request { split_number: Some(0), ..signed }, Kind::Retired);
        } else {
            assert!(!sent_retired(&signed), "{hash:#x}");
        }
        assert!(!sent_retired(&Request { signature: b"", ..signed }), "{hash:#x} of no signature");
    }
    for privacy_level in [None, Some(0), Some(2)] {
        assert!(!sent_retired(&Request { privacy_level, ..good }), "{privacy_level:?}");
    }
}

/// The verdict on the section of a request that is sent.
fn sent_retired(request: &Request<'_>) -> bool {
    let (section, first) = send_vec(request).unwrap();
    read(&section, first).unwrap().retired()
}

/// One part of the four that a SecurityHeader is written for is enough.
#[test]
fn which_header_was_sent_first() {
    let parts = [
        Request { sender_kind: Some(1), sender_id: &SID, ..ABSENT },
        Request { encryption_key: b"key", ..ABSENT },
        Request {
            signature: b"signed",
            hash_algorithm: Some(1),
            default_provider: true,
            provider_type: Some(1),
            ..ABSENT
        },
        Request { sender_cert: b"cert", ..ABSENT },
    ];
    for request in parts {
        let (section, first) = send_vec(&request).unwrap();
        assert_eq!(first, First::SecurityHeader);
        assert_eq!(read(&section, first).unwrap().section_length(), section.len());
    }
    let body = Some(Body::from(&b"body"[..]));
    let (section, first) = send_vec(&Request { extension: b"ext", body, ..ABSENT }).unwrap();
    assert_eq!(first, First::PropertiesHeader);
    assert_eq!(read(&section, first).unwrap().body(), b"body");
}

/// Refused by both functions, with the output as it stood.
fn check(request: &Request<'_>, kind: Kind) {
    let mut out = vec![0x55; 1_000];
    assert_eq!(defaulted(request), Err(refused(kind)));
    assert_eq!(send(request, &mut out), Err(refused(kind)));
    assert!(out.iter().all(|&byte| byte == 0x55));
}

#[test]
fn a_short_output_stays_as_it_stood() {
    let (title, name) = (units("Rope 7"), units("Provider"));
    let request = full(&title, &name);
    let length = send_vec(&request).unwrap().0.len();
    for room in 0..length {
        let mut out = vec![0x55; room];
        assert_eq!(send(&request, &mut out), Err(refused(Kind::OutputShort)));
        assert!(out.iter().all(|&byte| byte == 0x55));
    }
    let mut out = vec![0x55; length + 3];
    let sent = send(&request, &mut out).unwrap();
    assert_eq!((sent.length, sent.first), (length, First::SecurityHeader));
    assert_eq!(out[length..], [0x55; 3]);
    assert_eq!(send(&ABSENT, &mut []), Err(refused(Kind::OutputShort)));
}
