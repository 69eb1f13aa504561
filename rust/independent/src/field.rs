//! The field or part of a section that a place lies in, for whoever has a refusal and a hex viewer.

use crate::bytes::padded;
use crate::number;
use crate::read::headers;
use crate::steps::{Headers, PropertiesHeader, SecurityHeader, ENDLESS, PROVIDER_TYPE};

/// The fields and parts by their numbers: 0 is none, 34 and 35 are the headers as a whole.
pub const NAMES: [&str; 36] = [
    "none",
    "security Flags",
    "SenderIdSize",
    "EncryptionKeySize",
    "SignatureSize",
    "SenderCertSize",
    "ProviderInfoSize",
    "identity",
    "identity's padding",
    "key",
    "key's padding",
    "signature",
    "signature's padding",
    "certificate",
    "certificate's padding",
    "provider type",
    "provider name",
    "provider info's padding",
    "properties Flags",
    "LabelLength",
    "MessageClass",
    "CorrelationID",
    "BodyType",
    "ApplicationTag",
    "MessageSize",
    "AllocationBodySize",
    "PrivacyLevel",
    "HashAlgorithm",
    "EncryptionAlgorithm",
    "ExtensionSize",
    "label",
    "extension",
    "body",
    "padding at the end",
    "SecurityHeader",
    "MessagePropertiesHeader",
];

/// A SecurityHeader as a whole.
const SECURITY_HEADER: u32 = 34;
/// A MessagePropertiesHeader as a whole.
const PROPERTIES_HEADER: u32 = 35;
/// How many fields and parts a SecurityHeader has, and a section.
const IN_SECURITY: usize = 17;
const IN_SECTION: usize = 33;

/// The fixed fields' bytes, in their order.
const SECURITY_FIELDS: [u64; 6] = [2, 2, 2, 2, 4, 4];
const PROPERTIES_FIELDS: [u64; 12] = [1, 1, 2, 20, 4, 4, 4, 4, 4, 4, 4, 4];

/// A field or part by its number, and an offset in it.
#[derive(Debug, Clone, Copy, PartialEq, Eq, Default)]
pub struct FieldAt {
    /// Its number in [`NAMES`]; 0 where there is none.
    pub field: u32,
    /// The byte's offset in it.
    pub offset: usize,
}

/// What the place of a refusal with this number means. With a number that is none, 0, it is the field
/// or part whose bytes include the byte at `place`; a number that no S or P step has means no field.
pub fn field_of(input: &[u8], security_first: bool, number: u32, place: usize) -> FieldAt {
    if number > number::LABEL {
        return FieldAt::default();
    }
    if means_header(number, place) {
        return whole_header(security_first, place);
    }
    named(&lengths(input, security_first), input.len(), place)
}

/// Whether a refusal is about a header as a whole: 1, 8, and 7 by size, whose place is 0.
pub(crate) fn means_header(number: u32, place: usize) -> bool {
    matches!((number, place), (number::INPUT_SHORT | number::LIMIT, _) | (number::PROVIDER, 0))
}

/// The header that begins at `place`.
pub(crate) fn whole_header(security_first: bool, place: usize) -> FieldAt {
    let field = if security_first && place == 0 { SECURITY_HEADER } else { PROPERTIES_HEADER };
    FieldAt { field, offset: 0 }
}

/// The field or part at `place`; none behind the last of them, and none behind the input.
pub(crate) fn named(lengths: &Lengths, input: usize, place: usize) -> FieldAt {
    if place >= input {
        return FieldAt::default();
    }
    let mut offset = place as u64;
    for (field, &length) in (1..).zip(lengths) {
        if offset < length {
            return FieldAt { field, offset: offset as usize };
        }
        offset -= length;
    }
    FieldAt::default()
}

/// The bytes of each field and part, from number 1 on.
pub(crate) type Lengths = [u64; IN_SECTION];

/// The section at the start of `input` as its own fixed bytes lay it out, accepted or not. What belongs
/// to a SecurityHeader that does not stand first has no bytes.
pub(crate) fn lengths(input: &[u8], security_first: bool) -> Lengths {
    let Headers { security, properties, .. } = headers(input, security_first, ENDLESS);
    let mut lengths = [0; IN_SECTION];
    let (in_security, in_properties) = lengths.split_at_mut(IN_SECURITY);
    if let Some(header) = security {
        put_security(&header, in_security);
    }
    put_properties(&properties, in_properties);
    lengths
}

fn put_security(header: &SecurityHeader<'_>, lengths: &mut [u64]) {
    let SecurityHeader { identity, key, signature, certificate, provider, .. } = *header;
    let kind = provider.min(PROVIDER_TYPE as u64);
    let padding = |size| padded(size) - size;
    let (fields, parts) = lengths.split_at_mut(SECURITY_FIELDS.len());
    fields.copy_from_slice(&SECURITY_FIELDS);
    parts.copy_from_slice(&[
        identity,
        padding(identity),
        key,
        padding(key),
        signature,
        padding(signature),
        certificate,
        padding(certificate),
        kind,
        provider - kind,
        padding(provider),
    ]);
}

fn put_properties(header: &PropertiesHeader<'_>, lengths: &mut [u64]) {
    let PropertiesHeader { label_bytes, extension, message_size, .. } = *header;
    let body_end = header.label_at() + label_bytes + extension + message_size;
    let (fields, parts) = lengths.split_at_mut(PROPERTIES_FIELDS.len());
    fields.copy_from_slice(&PROPERTIES_FIELDS);
    parts.copy_from_slice(&[label_bytes, extension, message_size, padded(body_end) - body_end]);
}
