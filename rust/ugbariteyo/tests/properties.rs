//! The properties of a section that was read: every value that it carries, and what is not known where it does not.

use std::hash::{DefaultHasher, Hash, Hasher};

use ugbariteyo::{
    defaulted, read, send_vec, text_bytes, write_section_vec, First, Privacy, Properties, PropertiesFlags,
    Request, SectionValues, SecurityFlags, Units,
};

use First::{PropertiesHeader, SecurityHeader};

#[path = "given/request.rs"]
mod given_request;

use given_request::{full, units, ABSENT, SID};

/// Type 24, named "p".
const PROVIDER_INFO: [u8; 8] = [24, 0, 0, 0, b'p', 0, 0, 0];

/// A section in which every value differs.
fn signed(label: &[u8]) -> SectionValues<'_> {
    SectionValues {
        first: SecurityHeader,
        security_flags: SecurityFlags(0xF0A1),
        flags: PropertiesFlags(0xF6),
        message_class: 0x8009,
        body_type: 8,
        application_tag: 0xDEAD_BEEF,
        allocation_body_size: 77,
        privacy_level: 3,
        hash_algorithm: 0x800C,
        encryption_algorithm: 0x6801,
        correlation_id: *b"CorrelationID of it.",
        sender_id: &SID,
        encryption_key: b"key",
        signature: b"signed",
        provider_info: &PROVIDER_INFO,
        label,
        body: b"body",
        ..SectionValues::default()
    }
}

/// What `look` finds in the properties of the section of these values.
fn of_section<T>(values: &SectionValues<'_>, look: impl FnOnce(Properties<'_>) -> T) -> T {
    let section = write_section_vec(values).unwrap();
    look(read(&section, values.first).unwrap().properties())
}

#[test]
fn every_value_that_a_section_carries() {
    let label = text_bytes("Rope 7");
    of_section(&signed(&label), |properties| {
        assert_eq!(properties.handling, None);
        let sender = properties.sender.unwrap();
        assert_eq!((sender.kind, sender.default_provider, sender.encryption), (1, false, true));
        assert_eq!((properties.provider_type, properties.message_class), (Some(24), 0x8009));
        assert_eq!((properties.acknowledge, properties.application_tag), (6, 0xDEAD_BEEF));
        assert_eq!(properties.privacy_level, Privacy::Request(2));
        assert_eq!((properties.hash_algorithm, properties.encryption_algorithm), (0x800C, 0x6801));
        assert_eq!((properties.body_type, properties.message_size), (8, 4));
        assert_eq!(
            (properties.allocation_body_size, &properties.correlation_id),
            (77, b"CorrelationID of it.")
        );
        assert_eq!((properties.title.to_string(), properties.signature), ("Rope 7".into(), &b"signed"[..]));
    });
}

/// The sender of a section with these Flags beside DP, and this identity.
fn sender(flags: u16, sender_id: &[u8]) -> (u32, bool, bool) {
    let security_flags = SecurityFlags(SecurityFlags::DP | flags);
    let (first, sender_cert) = (SecurityHeader, b"cert");
    let values = SectionValues { first, security_flags, sender_id, sender_cert, ..Default::default() };
    of_section(&values, |properties| {
        let sender = properties.sender.unwrap();
        (sender.kind, sender.default_provider, sender.encryption)
    })
}

#[test]
fn a_sender_is_known_by_its_header() {
    assert_eq!(sender(0, &[]), (0, false, false));
    assert_eq!(sender(SecurityFlags::DE, &[]), (0, true, false));
    assert_eq!(sender(SecurityFlags::EB, &[]), (0, false, true));
    assert_eq!(sender(SecurityFlags::DE | SecurityFlags::EB, &[]), (0, true, true));
    assert_eq!(sender(SecurityFlags::SENDER_SID, &SID), (1, false, false));
    assert_eq!(sender(SecurityFlags::SENDER_QUEUE_MANAGER, &[7; 16]), (2, false, false));
    let first = PropertiesHeader;
    of_section(&SectionValues { first, ..signed(&[]) }, |properties| {
        assert_eq!((properties.handling, properties.sender, properties.provider_type), (None, None, None));
        assert_eq!((properties.signature, properties.application_tag), (&b""[..], 0xDEAD_BEEF));
    });
}

/// A type of 0 is one.
#[test]
fn a_provider_type_is_known_by_provider_info() {
    for kind in [0, 1, u32::MAX] {
        let provider_info = [&kind.to_le_bytes()[..], b"p\0\0\0"].concat();
        let values = SectionValues { provider_info: &provider_info, ..signed(&[]) };
        assert_eq!(of_section(&values, |properties| properties.provider_type), Some(kind));
    }
    let by_default = SecurityFlags(0x00E1);
    let values = SectionValues { security_flags: by_default, provider_info: &[], ..signed(&[]) };
    of_section(&values, |properties| {
        assert_eq!((properties.provider_type, properties.signature), (None, &b"signed"[..]));
    });
}

/// A request's 0, 1 and 2 are a packet's 0, 1 and 3; every other level is the packet's own.
#[test]
fn privacy_of_a_packet() {
    let becomes = [(0, 0), (1, 1), (3, 2)].map(|(level, privacy)| (level, Privacy::Request(privacy)));
    let other = [2, 4, 5, 6, 0x0100_0000, 0x0100_0001, 0x0100_0003, u32::MAX];
    for (privacy_level, privacy) in
        becomes.into_iter().chain(other.map(|level| (level, Privacy::Packet(level))))
    {
        for first in [SecurityHeader, PropertiesHeader] {
            let values = SectionValues { first, privacy_level, ..signed(&[]) };
            assert_eq!(of_section(&values, |properties| properties.privacy_level), privacy);
        }
    }
}

/// LabelLength counts the null, a title does not.
#[test]
fn a_title_is_the_label_without_its_null() {
    for length in [0, 1, 2, 249, 250] {
        let text = "x".repeat(usize::saturating_sub(length, 1));
        let label = if length == 0 { vec![] } else { text_bytes(&text) };
        let section = write_section_vec(&SectionValues { label: &label, ..Default::default() }).unwrap();
        let section = read(&section, PropertiesHeader).unwrap();
        let title = section.properties().title;
        assert_eq!(section.label_length(), Units(length as u32));
        assert_eq!((title.length(), title.to_string()), (Units(text.len() as u32), text.clone()));
        assert!(title.units().eq(text.encode_utf16()));
    }
}

fn hash(of: impl Hash) -> u64 {
    let mut hasher = DefaultHasher::new();
    of.hash(&mut hasher);
    hasher.finish()
}

/// Whether the titles of a request and of a section are equal; if so, their hashes are.
fn same_title(request: &[u16], section: &[u16]) -> bool {
    let given = Request { title: request, ..ABSENT };
    let given = defaulted(&given).unwrap().title;
    let label: Vec<u8> = section.iter().chain(&[0]).flat_map(|unit| unit.to_le_bytes()).collect();
    of_section(&SectionValues { label: &label, ..Default::default() }, |properties| {
        let same = given == properties.title;
        assert!(!same || hash(given) == hash(properties.title));
        assert_eq!(same, format!("{given} {given:?}") == format!("{0} {0:?}", properties.title));
        same
    })
}

#[test]
fn titles_are_equal_by_their_units() {
    let title = units("R\u{F6}pe \u{1F6A0}");
    assert!(same_title(&title, &title) && same_title(&[], &[]) && same_title(&[0xD83D], &[0xD83D]));
    assert!(!same_title(&title, &title[1..]) && !same_title(&[], &title));
    assert!(!same_title(&[0x0102], &[0x0201]));
    let request = Request { title: &title, ..ABSENT };
    assert_eq!(format!("{:?}", defaulted(&request).unwrap().title), "\"R\u{F6}pe \u{1F6A0}\"");
}

/// The section of a request has the request's properties, but for what it does not carry.
#[test]
fn properties_of_a_section_that_was_sent() {
    let (title, name) = (units("Rope 7"), units("Provider"));
    let full = full(&title, &name);
    let by_default = Request { default_provider: true, provider_type: Some(1), ..full };
    let plain = Request { title: &title, body: full.body, acknowledge: Some(9), ..ABSENT };
    for (request, has_sender, has_provider_info) in
        [(full, true, true), (by_default, true, false), (plain, false, false), (ABSENT, false, false)]
    {
        let mut carried = defaulted(&request).unwrap();
        assert!(carried.handling.is_some() && carried.sender.is_some() && carried.provider_type.is_some());
        carried.handling = None;
        carried.sender = carried.sender.filter(|_| has_sender);
        carried.provider_type = carried.provider_type.filter(|_| has_provider_info);
        let (section, first) = send_vec(&request).unwrap();
        let found = read(&section, first).unwrap().properties();
        assert_eq!(found, carried);
        assert_eq!(hash(found), hash(carried));
        assert!(!format!("{found:?}").contains("time_to"));
    }
}
