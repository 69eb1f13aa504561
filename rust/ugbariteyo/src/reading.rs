//! The full reading of a section.

use std::fmt;
use std::hash::{Hash, Hasher};

use crate::ffi;
use crate::flags::{PropertiesFlags, SecurityFlags};
use crate::part::{found, present, Part};
use crate::properties::Properties;
use crate::refusal::Refusal;
use crate::section::First;
use crate::summary::Summary;
use crate::text::{Text, Title, Units};
use crate::value::{read_value, BodyValue};

/// The full reading of a section: its summary, and a view of each private value and part.
///
/// Everything is borrowed from the input. Its `Debug` shows the summary only, so that no key, finding or
/// signature gets into a log.
#[derive(Clone, Copy)]
pub struct Reading<'a> {
    input: &'a [u8],
    answer: ffi::Reading,
}

impl<'a> Reading<'a> {
    #[inline]
    pub(crate) fn new(input: &'a [u8], first: First) -> Result<Self, Refusal> {
        // put in its place before it is looked at: an answer that is first accepted would be moved there whole
        let mut result = Ok(Self { input, answer: ffi::read(input, first) });
        if let Ok(reading) = &result {
            if let Err(refusal) = ffi::accepted(reading.answer.refusal) {
                result = Err(refusal);
            }
        }
        result
    }

    #[inline]
    fn part(&self, part: ffi::Part) -> &'a [u8] {
        found(part, self.input)
    }

    #[inline]
    fn security(&self) -> &ffi::SecurityHeader {
        &self.answer.section.summary.security
    }

    #[inline]
    fn fields(&self) -> &ffi::PropertiesFields {
        &self.answer.section.summary.properties
    }

    #[inline]
    fn parts(&self) -> &ffi::PropertiesParts {
        &self.answer.section.summary.parts
    }

    /// The summary, which holds nothing private.
    #[inline]
    pub fn summary(&self) -> Summary<'a> {
        Summary::new(&self.answer.section.summary, self.label_text(), self.provider_name())
    }

    /// The properties of the message, as far as its section carries them: both times and what else
    /// [`Handling`](crate::Handling) has are not known.
    ///
    /// ```
    /// use ugbariteyo::{defaulted, read, send_vec, Request};
    ///
    /// let provider_name = [b'p'.into()];
    /// let request = Request {
    ///     signature: b"signed",
    ///     hash_algorithm: Some(0x800C),
    ///     provider_name: &provider_name,
    ///     ..Request::new(60, 3_600)
    /// };
    /// let (section, first) = send_vec(&request)?;
    /// let mut carried = defaulted(&request)?;
    /// assert_eq!(carried.handling.map(|handling| handling.time_to_live), Some(3_600));
    /// carried.handling = None;
    /// assert_eq!(read(&section, first)?.properties(), carried);
    /// # Ok::<(), ugbariteyo::Refusal>(())
    /// ```
    ///
    /// Of a section without a SecurityHeader [`sender`](Properties::sender) is not known either, and of one without
    /// provider info [`provider_type`](Properties::provider_type).
    #[inline]
    pub fn properties(&self) -> Properties<'a> {
        let found = ffi::properties_of(self.answer.section);
        Properties::new(&found, *self.correlation_id(), Title::of_label(self.label()), self.signature())
    }

    /// Which header stands first, as the caller said.
    #[inline]
    pub fn first(&self) -> First {
        self.answer.section.summary.security_first
    }

    /// The section's length, padding included. Bytes behind it were not read.
    #[inline]
    pub fn section_length(&self) -> usize {
        self.parts().section_length
    }

    /// The verdict "authentication fails": PrivacyLevel, or HashAlgorithm beside a signature, is none of
    /// those listed.
    #[inline]
    pub fn authentication_fails(&self) -> bool {
        self.answer.section.summary.authentication_fails
    }

    /// The verdict "decryption fails": EB is set, and EncryptionAlgorithm is none that PrivacyLevel allows.
    /// Levels 1 and 3 allow RC2 and RC4 (0x6602, 0x6801), level 5 allows AES (0x660E, 0x660F, 0x6610); no
    /// other level allows any.
    ///
    /// ```
    /// use ugbariteyo::{read, write_section_vec, First, SecurityFlags, SectionValues};
    ///
    /// let rc4 = SectionValues {
    ///     first: First::SecurityHeader,
    ///     security_flags: SecurityFlags(SecurityFlags::DP | SecurityFlags::EB),
    ///     encryption_key: b"key",
    ///     privacy_level: 3,
    ///     encryption_algorithm: 0x6801,
    ///     ..SectionValues::default()
    /// };
    /// let bytes = write_section_vec(&rc4).unwrap();
    /// assert!(!read(&bytes, rc4.first).unwrap().decryption_fails());
    /// let bytes = write_section_vec(&SectionValues { privacy_level: 5, ..rc4 }).unwrap();
    /// assert!(read(&bytes, rc4.first).unwrap().decryption_fails());
    /// ```
    #[inline]
    pub fn decryption_fails(&self) -> bool {
        self.answer.section.summary.decryption_fails
    }

    /// The verdict "retired": PrivacyLevel is 1, or a signature is present with HashAlgorithm MD2, MD4 or MD5
    /// (0x8001, 0x8002, 0x8003). Such a section is read and written; a request for one is refused with 29.
    ///
    /// ```
    /// use ugbariteyo::{read, write_section_vec, SectionValues};
    ///
    /// let weak = SectionValues { privacy_level: 1, ..SectionValues::default() };
    /// let bytes = write_section_vec(&weak).unwrap();
    /// assert!(read(&bytes, weak.first).unwrap().retired());
    /// ```
    #[inline]
    pub fn retired(&self) -> bool {
        self.answer.section.summary.retired
    }

    /// The SecurityHeader's Flags; zero where there is none.
    #[inline]
    pub fn security_flags(&self) -> SecurityFlags {
        // only bits 0 to 11 are there
        SecurityFlags(self.security().fields.flags as u16)
    }

    /// The identity: a SID for sender kind 1, the GUID of a queue manager for 2.
    #[inline]
    pub fn sender_id(&self) -> &'a [u8] {
        self.part(self.security().parts.sender_id)
    }

    /// The key.
    #[inline]
    pub fn encryption_key(&self) -> &'a [u8] {
        self.part(self.security().parts.encryption_key)
    }

    /// The signature.
    #[inline]
    pub fn signature(&self) -> &'a [u8] {
        self.part(self.security().parts.signature)
    }

    /// The certificate.
    #[inline]
    pub fn sender_cert(&self) -> &'a [u8] {
        self.part(self.security().parts.sender_cert)
    }

    /// Provider info: a type of 4 bytes and the name, or nothing.
    #[inline]
    pub fn provider_info(&self) -> &'a [u8] {
        self.part(self.security().parts.provider_info)
    }

    /// The provider's type, where there is provider info.
    #[inline]
    pub fn provider_type(&self) -> Option<u32> {
        self.security().given_type()
    }

    /// The provider's name.
    #[inline]
    pub fn provider_name(&self) -> Text<'a> {
        Text::new(self.provider_info().get(4..).unwrap_or_default())
    }

    /// The properties' Flags.
    #[inline]
    pub fn flags(&self) -> PropertiesFlags {
        PropertiesFlags(self.fields().flags)
    }

    /// LabelLength, null included.
    #[inline]
    pub fn label_length(&self) -> Units {
        Units(self.fields().label_length)
    }

    /// MessageClass.
    #[inline]
    pub fn message_class(&self) -> u16 {
        self.fields().message_class
    }

    /// CorrelationID.
    #[inline]
    pub fn correlation_id(&self) -> &'a [u8; 20] {
        present(Part::from(self.answer.section.correlation_id).array_of(self.input))
    }

    /// BodyType.
    #[inline]
    pub fn body_type(&self) -> u32 {
        self.fields().body_type
    }

    /// ApplicationTag.
    #[inline]
    pub fn application_tag(&self) -> u32 {
        self.answer.section.application_tag
    }

    /// MessageSize, in bytes: the length of the body.
    #[inline]
    pub fn message_size(&self) -> usize {
        self.fields().message_size
    }

    /// AllocationBodySize, in bytes.
    #[inline]
    pub fn allocation_body_size(&self) -> usize {
        self.fields().allocation_body_size
    }

    /// PrivacyLevel.
    #[inline]
    pub fn privacy_level(&self) -> u32 {
        self.fields().privacy_level
    }

    /// HashAlgorithm.
    #[inline]
    pub fn hash_algorithm(&self) -> u32 {
        self.fields().hash_algorithm
    }

    /// EncryptionAlgorithm.
    #[inline]
    pub fn encryption_algorithm(&self) -> u32 {
        self.fields().encryption_algorithm
    }

    /// ExtensionSize, in bytes: the length of the extension.
    #[inline]
    pub fn extension_size(&self) -> usize {
        self.fields().extension_size
    }

    /// The label's bytes, null included; nothing where LabelLength is 0.
    #[inline]
    pub fn label(&self) -> &'a [u8] {
        self.part(self.parts().label)
    }

    /// The label as text.
    #[inline]
    pub fn label_text(&self) -> Text<'a> {
        Text::new(self.label())
    }

    /// The extension.
    #[inline]
    pub fn extension(&self) -> &'a [u8] {
        self.part(self.parts().extension)
    }

    /// The body: MessageSize bytes.
    #[inline]
    pub fn body(&self) -> &'a [u8] {
        self.part(self.parts().body)
    }

    /// The number that the body is, as [`read_value`] gives it.
    ///
    /// # Errors
    ///
    /// 62 where EB is set, 60 where BodyType is none of 3, 4, 5 and 19, and 61 where MessageSize is not 4, or not 8 for
    /// BodyType 5.
    #[inline]
    pub fn body_value(&self) -> Result<BodyValue, Refusal> {
        read_value(self.input, self.first())
    }

    /// The private values and parts, in their order.
    fn private(&self) -> (u32, [&'a [u8]; 7]) {
        let parts = [
            &self.correlation_id()[..],
            self.sender_id(),
            self.encryption_key(),
            self.signature(),
            self.sender_cert(),
            self.extension(),
            self.body(),
        ];
        (self.application_tag(), parts)
    }
}

/// Two readings are equal when their summaries and all private values and parts are.
impl PartialEq for Reading<'_> {
    fn eq(&self, other: &Self) -> bool {
        self.summary() == other.summary() && self.private() == other.private()
    }
}

impl Eq for Reading<'_> {}

impl Hash for Reading<'_> {
    fn hash<H: Hasher>(&self, state: &mut H) {
        (self.summary(), self.private()).hash(state);
    }
}

impl fmt::Debug for Reading<'_> {
    fn fmt(&self, f: &mut fmt::Formatter<'_>) -> fmt::Result {
        f.debug_struct("Reading").field("summary", &self.summary()).finish_non_exhaustive()
    }
}
