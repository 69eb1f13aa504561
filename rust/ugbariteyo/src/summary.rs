//! The summary of a section: what it says in public.

use crate::ffi;
use crate::flags::{PropertiesFlags, SecurityFlags};
use crate::part::Part;
use crate::section::First;
use crate::text::{Text, Units};

/// The SecurityHeader in a summary. The size fields are the lengths of the parts.
#[derive(Debug, Clone, Copy, PartialEq, Eq, Hash)]
#[non_exhaustive]
pub struct Security<'a> {
    /// Flags, bits 0 to 11.
    pub flags: SecurityFlags,
    /// The identity.
    pub sender_id: Part,
    /// The key.
    pub encryption_key: Part,
    /// The signature.
    pub signature: Part,
    /// The certificate.
    pub sender_cert: Part,
    /// Provider info: a type of 4 bytes and the name.
    pub provider_info: Part,
    /// The header's length, padding included.
    pub length: usize,
    /// The first byte of the identity for sender kind 1, else 0.
    pub sid_revision: u8,
    /// The second byte of the identity for sender kind 1, else 0.
    pub sid_sub_authority_count: u8,
    /// The provider's type, where there is provider info.
    pub provider_type: Option<u32>,
    /// The provider's name; empty of a section that came in portions.
    pub provider_name: Text<'a>,
}

/// What a section says in public: every judged field, the place of each part, the verdicts, the label and
/// the provider's name. It holds nothing private.
///
/// Two summaries are equal exactly when all of this is equal, label and name by content. For two accepted
/// inputs that is the case exactly when they agree in every judged bit.
#[derive(Debug, Clone, Copy, PartialEq, Eq, Hash)]
#[non_exhaustive]
pub struct Summary<'a> {
    /// The SecurityHeader, where one stands first.
    pub security: Option<Security<'a>>,
    /// Flags, bits 0 to 3.
    pub flags: PropertiesFlags,
    /// LabelLength, null included.
    pub label_length: Units,
    /// MessageClass.
    pub message_class: u16,
    /// BodyType.
    pub body_type: u32,
    /// MessageSize, in bytes: the length of the body.
    pub message_size: usize,
    /// AllocationBodySize, in bytes: at least MessageSize.
    pub allocation_body_size: usize,
    /// PrivacyLevel.
    pub privacy_level: u32,
    /// HashAlgorithm.
    pub hash_algorithm: u32,
    /// EncryptionAlgorithm.
    pub encryption_algorithm: u32,
    /// ExtensionSize, in bytes: the length of the extension.
    pub extension_size: usize,
    /// Where the label lies.
    pub label_part: Part,
    /// Where the extension lies.
    pub extension: Part,
    /// Where the body lies.
    pub body: Part,
    /// The section's length, padding included.
    pub section_length: usize,
    /// The verdict "authentication fails": [`Reading::authentication_fails`](crate::Reading::authentication_fails).
    pub authentication_fails: bool,
    /// The verdict "decryption fails": [`Reading::decryption_fails`](crate::Reading::decryption_fails).
    pub decryption_fails: bool,
    /// The verdict "retired": [`Reading::retired`](crate::Reading::retired).
    pub retired: bool,
    /// The label.
    pub label: Text<'a>,
}

impl<'a> Summary<'a> {
    #[inline]
    pub(crate) fn new(summary: &ffi::Summary, label: Text<'a>, provider_name: Text<'a>) -> Self {
        let has_security = summary.security_first == First::SecurityHeader;
        let properties = &summary.properties;
        let parts = &summary.parts;
        Self {
            security: has_security.then(|| Security::new(&summary.security, provider_name)),
            flags: PropertiesFlags(properties.flags),
            label_length: Units(properties.label_length),
            message_class: properties.message_class,
            body_type: properties.body_type,
            message_size: properties.message_size,
            allocation_body_size: properties.allocation_body_size,
            privacy_level: properties.privacy_level,
            hash_algorithm: properties.hash_algorithm,
            encryption_algorithm: properties.encryption_algorithm,
            extension_size: properties.extension_size,
            label_part: parts.label.into(),
            extension: parts.extension.into(),
            body: parts.body.into(),
            section_length: parts.section_length,
            authentication_fails: summary.authentication_fails,
            decryption_fails: summary.decryption_fails,
            retired: summary.retired,
            label,
        }
    }

    /// The same without the content of the provider's name: what [`Portions`](crate::Portions) give of a section.
    ///
    /// Two such summaries of accepted inputs are equal exactly when the inputs agree in every judged bit outside the
    /// provider's name.
    #[inline]
    pub fn without_provider_name(self) -> Self {
        let without = |security| Security { provider_name: Text::default(), ..security };
        Self { security: self.security.map(without), ..self }
    }
}

impl<'a> Security<'a> {
    #[inline]
    fn new(security: &ffi::SecurityHeader, provider_name: Text<'a>) -> Self {
        let parts = &security.parts;
        Self {
            // only bits 0 to 11 are there
            flags: SecurityFlags(security.fields.flags as u16),
            sender_id: parts.sender_id.into(),
            encryption_key: parts.encryption_key.into(),
            signature: parts.signature.into(),
            sender_cert: parts.sender_cert.into(),
            provider_info: parts.provider_info.into(),
            length: parts.length,
            sid_revision: security.sid_revision,
            sid_sub_authority_count: security.sid_sub_authority_count,
            provider_type: security.given_type(),
            provider_name,
        }
    }
}
