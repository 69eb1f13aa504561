//! Reading a section by the steps S1 to S11 and P1 to P7.

use crate::bytes::{u16_at, u32_at};
use crate::lists::{
    encryption_is_allowed, hash_is_listed, hash_is_retired, privacy_is_listed, privacy_is_retired,
};
use crate::section::{Parts, Properties, Section, Security, SecurityFlags, Summary};
use crate::section::{PROPERTIES_FIXED, SECURITY_FIXED};
use crate::steps::{Headers, PropertiesHeader, SectionStep, SecurityHeader, ENDLESS, READING};
use crate::Refusal;

/// Reads the section at the start of `input`; bytes behind it are not looked at. "The first step
/// that fails gives the refusal", and its place is "the first byte of the field that failed" (C-17).
pub fn read(input: &[u8], security_first: bool) -> Result<Section<'_>, Refusal> {
    read_by(&READING, input, security_first, ENDLESS)
}

/// [`read`] by the steps of `order`, with so many bytes of output lent for a copy.
#[inline(always)]
pub(crate) fn read_by<'a>(
    order: &[SectionStep],
    input: &'a [u8],
    security_first: bool,
    output: usize,
) -> Result<Section<'a>, Refusal> {
    let headers = headers(input, security_first, output);
    headers.judge(order)?;
    Ok(section(input, &headers))
}

/// What the steps look at. A header that is cut counts as zeros: S1 or P1 comes before all that
/// looks at its fields.
pub(crate) fn headers(input: &[u8], security_first: bool, output: usize) -> Headers<'_> {
    let security = security_first.then(|| security_header(input));
    let at = security.as_ref().map_or(0, SecurityHeader::length);
    Headers { security, properties: properties_header(input, at), output }
}

fn security_header(input: &[u8]) -> SecurityHeader<'_> {
    let fixed = input.first_chunk().unwrap_or(&[0; SECURITY_FIXED]);
    let mut header = security_fields(fixed, input.len());
    let mut parts = Parts::default();
    header.lay_out(&mut parts);
    header.identity_bytes = parts.identity.if_there(input);
    header.provider_info = parts.provider.if_there(input);
    header
}

/// A MessagePropertiesHeader that begins at `at`.
pub(crate) fn properties_header(input: &[u8], at: u64) -> PropertiesHeader<'_> {
    let fixed = fixed_at(input, at).unwrap_or(&[0; PROPERTIES_FIXED]);
    let mut header = properties_fields(fixed, at, input.len());
    let mut parts = Parts::default();
    header.lay_out(&mut parts);
    header.label = parts.label.if_there(input);
    header
}

/// The fields of a SecurityHeader in an input of so many bytes; its parts are not there yet.
pub(crate) fn security_fields<'a>(fixed: &[u8; SECURITY_FIXED], input: usize) -> SecurityHeader<'a> {
    SecurityHeader {
        input,
        flags: SecurityFlags::new(u16_at(fixed, 0)),
        identity: u16_at(fixed, 2).into(),
        key: u16_at(fixed, 4).into(),
        signature: u16_at(fixed, 6).into(),
        certificate: u32_at(fixed, 8).into(),
        provider: u32_at(fixed, 12).into(),
        identity_bytes: &[],
        provider_info: &[],
    }
}

/// The fields of a MessagePropertiesHeader that begins at `at` in an input of so many bytes; its label is
/// not there yet.
pub(crate) fn properties_fields<'a>(
    fixed: &[u8; PROPERTIES_FIXED],
    at: u64,
    input: usize,
) -> PropertiesHeader<'a> {
    PropertiesHeader {
        input,
        at,
        label_bytes: 2 * u64::from(fixed[1]),
        class: u16_at(fixed, 2),
        body_type: u32_at(fixed, 24),
        message_size: u32_at(fixed, 32).into(),
        allocation: u32_at(fixed, 36).into(),
        extension: u32_at(fixed, 52).into(),
        label: &[],
    }
}

/// The fixed bytes of a MessagePropertiesHeader, where they are there.
fn fixed_at(input: &[u8], at: u64) -> Option<&[u8; PROPERTIES_FIXED]> {
    input.get(at as usize..)?.first_chunk()
}

/// The full reading of a section that passed its steps.
pub(crate) fn section<'a>(input: &'a [u8], headers: &Headers<'a>) -> Section<'a> {
    let fixed = fixed_at(input, headers.properties.at).expect("P1 passed");
    let summary = summary(headers, fixed);
    let parts = summary.parts;
    Section {
        summary,
        correlation_id: fixed[4..].first_chunk().expect("20 of the 56 bytes"),
        application_tag: u32_at(fixed, 28),
        identity: parts.identity.of(input),
        key: parts.key.of(input),
        signature: parts.signature.of(input),
        certificate: parts.certificate.of(input),
        extension: parts.extension.of(input),
        body: parts.body.of(input),
    }
}

/// The summary of a section that passed its steps, by its headers and the fixed bytes of the second one.
#[inline(always)]
pub(crate) fn summary<'a>(headers: &Headers<'a>, fixed: &[u8; PROPERTIES_FIXED]) -> Summary<'a> {
    let security = headers.security.as_ref().map(security_of);
    let properties = Properties { label: headers.properties.label, ..properties_of(fixed) };
    Summary {
        security,
        properties,
        authentication_fails: authentication_fails(&security, &properties),
        decryption_fails: decryption_fails(&security, &properties),
        retired: retired(&security, &properties),
        parts: headers.parts(),
        length: headers.properties.length() as usize,
    }
}

/// The judged fields of a SecurityHeader. Its sizes were read from their 16 or 32 bits, so that the
/// casts keep their values.
fn security_of<'a>(header: &SecurityHeader<'a>) -> Security<'a> {
    let info = header.provider_info.split_first_chunk();
    let sid = header.identity_bytes.first_chunk().filter(|_| header.flags.sender_kind() == 1);
    Security {
        flags: header.flags,
        identity_size: header.identity as u16,
        key_size: header.key as u16,
        signature_size: header.signature as u16,
        certificate_size: header.certificate as u32,
        provider_size: header.provider as u32,
        sid: *sid.unwrap_or(&[0; 2]),
        provider_type: info.map(|(kind, _)| u32::from_le_bytes(*kind)),
        provider_name: info.map_or(&[], |(_, name)| name),
    }
}

/// The judged numbers of the fixed bytes; the label is not there yet.
fn properties_of<'a>(fixed: &[u8; PROPERTIES_FIXED]) -> Properties<'a> {
    Properties {
        flags: fixed[0] & 0x0F,
        label_length: fixed[1],
        class: u16_at(fixed, 2),
        body_type: u32_at(fixed, 24),
        message_size: u32_at(fixed, 32),
        allocation: u32_at(fixed, 36),
        privacy: u32_at(fixed, 40),
        hash: u32_at(fixed, 44),
        encryption: u32_at(fixed, 48),
        extension_size: u32_at(fixed, 52),
        label: &[],
    }
}

fn authentication_fails(security: &Option<Security>, properties: &Properties) -> bool {
    !privacy_is_listed(properties.privacy) || is_signed(security) && !hash_is_listed(properties.hash)
}

fn decryption_fails(security: &Option<Security>, properties: &Properties) -> bool {
    let encrypted = security.as_ref().is_some_and(|security| security.flags.body_encrypted());
    encrypted && !encryption_is_allowed(properties.privacy, properties.encryption)
}

/// C-21: "PrivacyLevel is 1, or a signature is present with hash 0x8001, 0x8002 or 0x8003".
fn retired(security: &Option<Security>, properties: &Properties) -> bool {
    privacy_is_retired(properties.privacy) || is_signed(security) && hash_is_retired(properties.hash)
}

/// "A signature is present."
fn is_signed(security: &Option<Security>) -> bool {
    security.as_ref().is_some_and(|security| security.signature_size != 0)
}
