//! Writing a section.

use std::fmt;

use crate::ffi;
use crate::flags::{PropertiesFlags, SecurityFlags};
use crate::reading::Reading;
use crate::refusal::Refusal;
use crate::section::{First, LIMIT};

/// The values and parts of a section to write. The sizes are those of the parts.
///
/// Its `Debug` shows no private part.
// The values but the parts stand first and lie as in C, so that a call takes them as they are.
#[derive(Clone, Copy, PartialEq, Eq, Hash, Default)]
#[repr(C)]
pub struct SectionValues<'a> {
    /// Which header stands first. Without a SecurityHeader its flags and parts are ignored.
    pub first: First,
    /// The SecurityHeader's Flags. Bits 12 to 15 are written zero.
    pub security_flags: SecurityFlags,
    /// The properties' Flags. Bits 4 to 7 are written zero.
    pub flags: PropertiesFlags,
    /// MessageClass.
    pub message_class: u16,
    /// BodyType.
    pub body_type: u32,
    /// ApplicationTag.
    pub application_tag: u32,
    /// AllocationBodySize, in bytes: at least the length of the body.
    pub allocation_body_size: usize,
    /// PrivacyLevel.
    pub privacy_level: u32,
    /// HashAlgorithm.
    pub hash_algorithm: u32,
    /// EncryptionAlgorithm.
    pub encryption_algorithm: u32,
    /// CorrelationID.
    pub correlation_id: [u8; 20],
    /// The identity.
    pub sender_id: &'a [u8],
    /// The key, at most 65,535 bytes.
    pub encryption_key: &'a [u8],
    /// The signature, at most 65,535 bytes.
    pub signature: &'a [u8],
    /// The certificate, at most 65,535 bytes.
    pub sender_cert: &'a [u8],
    /// Provider info: a type of 4 bytes and the name with its null, or nothing.
    pub provider_info: &'a [u8],
    /// The label with its null, as [`text_bytes`](crate::text_bytes) gives it, or nothing.
    pub label: &'a [u8],
    /// The extension.
    pub extension: &'a [u8],
    /// The body.
    pub body: &'a [u8],
}

impl SectionValues<'_> {
    /// So many bytes are room enough for the section.
    fn room(&self) -> usize {
        let security =
            [self.sender_id, self.encryption_key, self.signature, self.sender_cert, self.provider_info];
        let properties = [self.label, self.extension, self.body];
        let sizes = security.iter().chain(&properties).map(|part| part.len() + 3);
        sizes.fold(16 + 56, usize::saturating_add).min(LIMIT)
    }
}

impl<'a> From<&Reading<'a>> for SectionValues<'a> {
    fn from(reading: &Reading<'a>) -> Self {
        Self {
            first: reading.first(),
            security_flags: reading.security_flags(),
            sender_id: reading.sender_id(),
            encryption_key: reading.encryption_key(),
            signature: reading.signature(),
            sender_cert: reading.sender_cert(),
            provider_info: reading.provider_info(),
            flags: reading.flags(),
            message_class: reading.message_class(),
            correlation_id: *reading.correlation_id(),
            body_type: reading.body_type(),
            application_tag: reading.application_tag(),
            allocation_body_size: reading.allocation_body_size(),
            privacy_level: reading.privacy_level(),
            hash_algorithm: reading.hash_algorithm(),
            encryption_algorithm: reading.encryption_algorithm(),
            label: reading.label(),
            extension: reading.extension(),
            body: reading.body(),
        }
    }
}

impl fmt::Debug for SectionValues<'_> {
    fn fmt(&self, f: &mut fmt::Formatter<'_>) -> fmt::Result {
        f.debug_struct("SectionValues")
            .field("first", &self.first)
            .field("security_flags", &self.security_flags)
            .field("flags", &self.flags)
            .field("message_class", &self.message_class)
            .field("body_type", &self.body_type)
            .field("allocation_body_size", &self.allocation_body_size)
            .field("privacy_level", &self.privacy_level)
            .field("hash_algorithm", &self.hash_algorithm)
            .field("encryption_algorithm", &self.encryption_algorithm)
            .finish_non_exhaustive()
    }
}

/// Writes the section of these values to the front of `out`, and gives its length. Bytes of `out` behind the
/// section stay as they were.
///
/// # Errors
///
/// 28, then 2 to 12 by the steps of reading that look at values and content, then 13 where `out` is shorter than
/// the section. Nothing is written then.
///
/// ```
/// use ugbariteyo::{read, text_bytes, write_section, First, SectionValues};
///
/// let label = text_bytes("rope 7");
/// let values = SectionValues {
///     label: &label,
///     extension: b"first",
///     body: b"second",
///     allocation_body_size: 6,
///     ..Default::default()
/// };
/// let mut out = [0; 100];
/// let length = write_section(&values, &mut out)?;
/// let section = read(&out[..length], First::PropertiesHeader)?;
/// assert_eq!(section.label_text().to_string(), "rope 7");
/// assert_eq!(SectionValues::from(&section), values);
/// # Ok::<(), ugbariteyo::Refusal>(())
/// ```
#[inline]
pub fn write_section(values: &SectionValues<'_>, out: &mut [u8]) -> Result<usize, Refusal> {
    ffi::written(ffi::write_section(values, out))
}

/// The section of these values in a vector of its own.
///
/// # Errors
///
/// As of [`write_section`], but never 13.
pub fn write_section_vec(values: &SectionValues<'_>) -> Result<Vec<u8>, Refusal> {
    let mut section = vec![0; values.room()];
    let length = write_section(values, &mut section)?;
    section.truncate(length);
    Ok(section)
}
