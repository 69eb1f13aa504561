//! Requests that tests share.

use ugbariteyo::{Body, Request};

/// A request that gives both times and nothing else.
pub const ABSENT: Request<'_> = Request::new(60, 3_600);

pub const SID: [u8; 12] = [1, 1, 0, 0, 0, 0, 0, 5, 18, 0, 0, 0];

pub fn units(text: &str) -> Vec<u16> {
    text.encode_utf16().collect()
}

/// A request with every value and part given.
pub fn full<'a>(title: &'a [u16], name: &'a [u16]) -> Request<'a> {
    Request {
        priority: Some(7),
        trace: Some(1),
        delivery: Some(0),
        auditing: Some(3),
        message_class: Some(0x8009),
        acknowledge: Some(15),
        application_tag: Some(0xDEAD_BEEF),
        privacy_level: Some(2),
        hash_algorithm: Some(0x800C),
        encryption_algorithm: Some(0x6610),
        body_type: Some(8),
        sender_kind: Some(1),
        provider_type: Some(24),
        split_number: Some(9),
        provider_name_length: 4,
        time_to_queue: 600,
        time_to_live: 86_400,
        correlation_id: Some([7; 20]),
        transaction: true,
        direct_queue: false,
        default_provider: false,
        encryption: true,
        title,
        sender_id: &SID,
        encryption_key: b"key",
        signature: b"old signed",
        sender_cert: b"cert.",
        provider_name: name,
        extension: b"ext",
        body: Some(Body { bytes: b"body", allocation: 6 }),
    }
}
