//! The section writer: "takes the full reading's values and parts, with the sizes given by the
//! parts".

use crate::section::{Section, SecurityFlags, PROPERTIES_FIXED, SECURITY_FIXED};
use crate::steps::{Headers, PropertiesHeader, SectionStep, SecurityHeader, ENDLESS, WRITING};
use crate::Refusal;

/// The values and parts of a section to be written. Sizes come from the parts; "AllocationBodySize
/// is a value". Without a SecurityHeader its flags and five parts are ignored.
#[derive(Debug, Clone, Copy, PartialEq, Eq, Default)]
pub struct SectionValues<'a> {
    /// Whether a SecurityHeader stands first.
    pub security_first: bool,
    /// The SecurityHeader's Flags; its X bits are written zero.
    pub security_flags: u16,
    /// The sender's identity.
    pub sender_id: &'a [u8],
    /// The encryption key.
    pub encryption_key: &'a [u8],
    /// The signature.
    pub signature: &'a [u8],
    /// The sender's certificate.
    pub sender_cert: &'a [u8],
    /// The provider info, type and name together; empty for none.
    pub provider_info: &'a [u8],
    /// The properties Flags; the four X bits are written zero.
    pub flags: u8,
    /// MessageClass.
    pub message_class: u16,
    /// CorrelationID.
    pub correlation_id: [u8; 20],
    /// BodyType.
    pub body_type: u32,
    /// ApplicationTag.
    pub application_tag: u32,
    /// AllocationBodySize: any number, judged by P4.
    pub allocation_body_size: u64,
    /// PrivacyLevel.
    pub privacy_level: u32,
    /// HashAlgorithm.
    pub hash_algorithm: u32,
    /// EncryptionAlgorithm.
    pub encryption_algorithm: u32,
    /// The label: 16-bit units with their null, as bytes; empty for none.
    pub label: &'a [u8],
    /// The extension data.
    pub extension: &'a [u8],
    /// The body.
    pub body: &'a [u8],
}

impl<'a> SectionValues<'a> {
    /// The values of `section`, which was read from `input`. Written again they give that section
    /// with X bits and padding zero.
    pub fn of(section: &Section<'a>, input: &'a [u8]) -> Self {
        let summary = &section.summary;
        Self {
            security_first: summary.security.is_some(),
            security_flags: summary.security.map_or(0, |security| security.flags.bits()),
            sender_id: section.identity,
            encryption_key: section.key,
            signature: section.signature,
            sender_cert: section.certificate,
            provider_info: summary.parts.provider.of(input),
            flags: summary.properties.flags,
            message_class: summary.properties.class,
            correlation_id: *section.correlation_id,
            body_type: summary.properties.body_type,
            application_tag: section.application_tag,
            allocation_body_size: summary.properties.allocation.into(),
            privacy_level: summary.properties.privacy,
            hash_algorithm: summary.properties.hash,
            encryption_algorithm: summary.properties.encryption,
            label: summary.properties.label,
            extension: section.extension,
            body: section.body,
        }
    }
}

/// Writes the section to the start of `out` and gives its length. "It applies 28, then the same
/// steps without S1, S9, P1, P6, then 13"; a refusal writes nothing.
pub fn write_section(values: &SectionValues<'_>, out: &mut [u8]) -> Result<usize, Refusal> {
    write_by(&WRITING, values, out)
}

/// [`write_section`] by the steps of `order`.
#[inline(always)]
pub(crate) fn write_by(
    order: &[SectionStep],
    values: &SectionValues<'_>,
    out: &mut [u8],
) -> Result<usize, Refusal> {
    let headers = headers(values, out.len());
    headers.judge(order)?;
    let length = headers.properties.length() as usize;
    let (security, properties) = out[..length].split_at_mut(headers.properties.at as usize);
    if values.security_first {
        put_security(values, security);
    }
    put_properties(values, properties);
    Ok(length)
}

/// What the steps look at, with so many bytes of output lent.
pub(crate) fn headers<'a>(values: &SectionValues<'a>, output: usize) -> Headers<'a> {
    let security = values.security_first.then(|| SecurityHeader {
        input: ENDLESS,
        flags: SecurityFlags::new(values.security_flags),
        identity: values.sender_id.len() as u64,
        key: values.encryption_key.len() as u64,
        signature: values.signature.len() as u64,
        certificate: values.sender_cert.len() as u64,
        provider: values.provider_info.len() as u64,
        identity_bytes: values.sender_id,
        provider_info: values.provider_info,
    });
    let properties = PropertiesHeader {
        input: ENDLESS,
        at: security.as_ref().map_or(0, SecurityHeader::length),
        label_bytes: values.label.len() as u64,
        class: values.message_class,
        body_type: values.body_type,
        message_size: values.body.len() as u64,
        allocation: values.allocation_body_size,
        extension: values.extension.len() as u64,
        label: values.label,
    };
    Headers { security, properties, output }
}

/// Writes the checked SecurityHeader to `out`, which has its length. Every size passed its step,
/// so that the casts keep their values.
fn put_security(values: &SectionValues<'_>, out: &mut [u8]) {
    let (fixed, mut rest) = out.split_at_mut(SECURITY_FIXED);
    fixed[0..2].copy_from_slice(&SecurityFlags::new(values.security_flags).bits().to_le_bytes());
    fixed[2..4].copy_from_slice(&(values.sender_id.len() as u16).to_le_bytes());
    fixed[4..6].copy_from_slice(&(values.encryption_key.len() as u16).to_le_bytes());
    fixed[6..8].copy_from_slice(&(values.signature.len() as u16).to_le_bytes());
    fixed[8..12].copy_from_slice(&(values.sender_cert.len() as u32).to_le_bytes());
    fixed[12..16].copy_from_slice(&(values.provider_info.len() as u32).to_le_bytes());
    for part in
        [values.sender_id, values.encryption_key, values.signature, values.sender_cert, values.provider_info]
    {
        rest = put(part, rest);
        let padding = part.len().wrapping_neg() % 4;
        rest = put(&[0; 3][..padding], rest);
    }
}

/// Writes the checked MessagePropertiesHeader to `out`, which has its length.
fn put_properties(values: &SectionValues<'_>, out: &mut [u8]) {
    let (fixed, rest) = out.split_at_mut(PROPERTIES_FIXED);
    fixed[0] = values.flags & 0x0F;
    fixed[1] = (values.label.len() / 2) as u8;
    fixed[2..4].copy_from_slice(&values.message_class.to_le_bytes());
    fixed[4..24].copy_from_slice(&values.correlation_id);
    fixed[24..28].copy_from_slice(&values.body_type.to_le_bytes());
    fixed[28..32].copy_from_slice(&values.application_tag.to_le_bytes());
    fixed[32..36].copy_from_slice(&(values.body.len() as u32).to_le_bytes());
    fixed[36..40].copy_from_slice(&(values.allocation_body_size as u32).to_le_bytes());
    fixed[40..44].copy_from_slice(&values.privacy_level.to_le_bytes());
    fixed[44..48].copy_from_slice(&values.hash_algorithm.to_le_bytes());
    fixed[48..52].copy_from_slice(&values.encryption_algorithm.to_le_bytes());
    fixed[52..56].copy_from_slice(&(values.extension.len() as u32).to_le_bytes());
    let rest = put(values.label, rest);
    let rest = put(values.extension, rest);
    let padding = put(values.body, rest);
    padding.fill(0);
}

/// Writes `part` to the start of `out` and gives the rest of the output behind it.
fn put<'o>(part: &[u8], out: &'o mut [u8]) -> &'o mut [u8] {
    let (place, rest) = out.split_at_mut(part.len());
    place.copy_from_slice(part);
    rest
}
