//! What a section is: its parts, its summary and its full reading.

/// The most bytes a section may have.
pub const LIMIT: u64 = 4_194_304;
/// The fixed bytes of a SecurityHeader.
pub const SECURITY_FIXED: usize = 16;
/// The fixed bytes of a MessagePropertiesHeader.
pub const PROPERTIES_FIXED: usize = 56;
/// The most 16-bit units a label may have, its null included.
pub const LABEL_MOST: u8 = 250;

/// Where a part lies in the input, in bytes.
#[derive(Debug, Clone, Copy, PartialEq, Eq, Default)]
pub struct Part {
    /// The offset of its first byte.
    pub start: usize,
    /// Its bytes, without padding.
    pub length: usize,
}

impl Part {
    /// The bytes of this part of `input`.
    pub(crate) fn of(self, input: &[u8]) -> &[u8] {
        &input[self.start..self.start + self.length]
    }
    /// The bytes of this part of `input`, or nothing where it does not reach so far.
    pub(crate) fn if_there(self, input: &[u8]) -> &[u8] {
        input.get(self.start..self.start + self.length).unwrap_or_default()
    }
}

/// The eight parts of a section. Without a SecurityHeader the first five start at 0 with length 0.
#[derive(Debug, Clone, Copy, PartialEq, Eq, Default)]
pub struct Parts {
    /// The sender's identity.
    pub identity: Part,
    /// The encryption key.
    pub key: Part,
    /// The signature.
    pub signature: Part,
    /// The sender's certificate.
    pub certificate: Part,
    /// The provider info: type and name.
    pub provider: Part,
    /// The label.
    pub label: Part,
    /// The extension data.
    pub extension: Part,
    /// The body: MessageSize bytes, whatever the allocation.
    pub body: Part,
}

/// The judged bits of the SecurityHeader's Flags: bits 0 to 11.
#[derive(Debug, Clone, Copy, PartialEq, Eq)]
pub struct SecurityFlags(u16);

impl SecurityFlags {
    const JUDGED: u16 = 0x0FFF;
    pub(crate) const BODY_ENCRYPTED: u16 = 0x20;
    pub(crate) const DEFAULT_PROVIDER: u16 = 0x40;
    pub(crate) const DATA_PRESENT: u16 = 0x80;

    /// The judged ones of `bits`; X12 to X15 are dropped.
    pub(crate) fn new(bits: u16) -> Self {
        Self(bits & Self::JUDGED)
    }
    /// All judged bits as they lie.
    pub fn bits(self) -> u16 {
        self.0
    }
    /// ST, the kind of sender identity.
    pub fn sender_kind(self) -> u8 {
        (self.0 & 0xF) as u8
    }
    /// AU, which has to be clear.
    pub fn authenticated(self) -> bool {
        self.0 & 0x10 != 0
    }
    /// EB, the body is encrypted.
    pub fn body_encrypted(self) -> bool {
        self.0 & Self::BODY_ENCRYPTED != 0
    }
    /// DE, the default provider is used.
    pub fn default_provider(self) -> bool {
        self.0 & Self::DEFAULT_PROVIDER != 0
    }
    /// DP, the data is present.
    pub fn data_present(self) -> bool {
        self.0 & Self::DATA_PRESENT != 0
    }
    /// AS, which has to be zero.
    pub fn signature_kind(self) -> u8 {
        (self.0 >> 8) as u8
    }
}

/// What is judged of a SecurityHeader.
#[derive(Debug, Clone, Copy, PartialEq, Eq)]
pub struct Security<'a> {
    /// Bits 0 to 11 of Flags.
    pub flags: SecurityFlags,
    /// SenderIdSize.
    pub identity_size: u16,
    /// EncryptionKeySize.
    pub key_size: u16,
    /// SignatureSize.
    pub signature_size: u16,
    /// SenderCertSize.
    pub certificate_size: u32,
    /// ProviderInfoSize.
    pub provider_size: u32,
    /// The first two identity bytes for ST 1, else 0.
    pub sid: [u8; 2],
    /// The provider's type; none where there is no provider info.
    pub provider_type: Option<u32>,
    /// The provider's name: its units with their null, as bytes.
    pub provider_name: &'a [u8],
}

/// What is judged of a MessagePropertiesHeader.
#[derive(Debug, Clone, Copy, PartialEq, Eq)]
pub struct Properties<'a> {
    /// PA, PR, NA and NR: the low four bits of Flags.
    pub flags: u8,
    /// The label's 16-bit units, its null included.
    pub label_length: u8,
    /// MessageClass.
    pub class: u16,
    /// BodyType.
    pub body_type: u32,
    /// MessageSize, the body's bytes.
    pub message_size: u32,
    /// AllocationBodySize.
    pub allocation: u32,
    /// PrivacyLevel.
    pub privacy: u32,
    /// HashAlgorithm.
    pub hash: u32,
    /// EncryptionAlgorithm.
    pub encryption: u32,
    /// ExtensionSize.
    pub extension_size: u32,
    /// The label: its units with their null, as bytes.
    pub label: &'a [u8],
}

/// Everything that the judged bits of a section say. Two sections that agree in every judged bit
/// have equal summaries, and the reverse.
#[derive(Debug, Clone, Copy, PartialEq, Eq)]
pub struct Summary<'a> {
    /// The SecurityHeader, where one stands first.
    pub security: Option<Security<'a>>,
    /// The MessagePropertiesHeader.
    pub properties: Properties<'a>,
    /// The verdict on privacy level and hash algorithm.
    pub authentication_fails: bool,
    /// The verdict on privacy level and encryption algorithm.
    pub decryption_fails: bool,
    /// Whether privacy level or hash algorithm is one that is no longer sent.
    pub retired: bool,
    /// Start and length of each part.
    pub parts: Parts,
    /// The section's length in bytes, the padding at its end included.
    pub length: usize,
}

impl Summary<'_> {
    /// The summary without the content of the provider name, as C-12 compares it.
    pub fn without_provider_name(self) -> Self {
        let security = self.security.map(|security| Security { provider_name: &[], ..security });
        Self { security, ..self }
    }
}

/// The full reading: the summary, and what is private but padding.
#[derive(Debug, Clone, Copy, PartialEq, Eq)]
pub struct Section<'a> {
    /// What is judged.
    pub summary: Summary<'a>,
    /// CorrelationID.
    pub correlation_id: &'a [u8; 20],
    /// ApplicationTag.
    pub application_tag: u32,
    /// The sender's identity.
    pub identity: &'a [u8],
    /// The encryption key.
    pub key: &'a [u8],
    /// The signature.
    pub signature: &'a [u8],
    /// The sender's certificate.
    pub certificate: &'a [u8],
    /// The extension data.
    pub extension: &'a [u8],
    /// The body.
    pub body: &'a [u8],
}
