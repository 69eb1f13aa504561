//! The fields of a section, and which of them lies at a place.

use std::fmt;

use crate::ffi;
use crate::refusal::Refusal;
use crate::section::First;

macro_rules! fields {
    ($($name:ident = $number:literal, $text:literal;)*) => {
        /// The fields and parts of a section in the order of their bytes, then the two headers.
        #[derive(Debug, Clone, Copy, PartialEq, Eq, Hash)]
        #[non_exhaustive]
        #[repr(u32)]
        pub enum Field {
            $(#[doc = concat!($number, ": ", $text, ".")] $name = $number,)*
        }

        impl Field {
            /// Every field, by number.
            pub const ALL: [Self; [$($number),*].len()] = [$(Self::$name),*];

            /// What it is called.
            pub fn text(self) -> &'static str {
                match self {
                    $(Self::$name => $text,)*
                }
            }
        }
    };
}

// The names and texts of `include/ugbariteyo.h`.
fields! {
    SecurityFlags = 1, "SecurityHeader Flags";
    SenderIdSize = 2, "SenderIdSize";
    EncryptionKeySize = 3, "EncryptionKeySize";
    SignatureSize = 4, "SignatureSize";
    SenderCertSize = 5, "SenderCertSize";
    ProviderInfoSize = 6, "ProviderInfoSize";
    SenderId = 7, "identity";
    SenderIdPadding = 8, "padding behind the identity";
    EncryptionKey = 9, "key";
    EncryptionKeyPadding = 10, "padding behind the key";
    Signature = 11, "signature";
    SignaturePadding = 12, "padding behind the signature";
    SenderCert = 13, "certificate";
    SenderCertPadding = 14, "padding behind the certificate";
    ProviderType = 15, "provider type";
    ProviderName = 16, "provider name";
    ProviderInfoPadding = 17, "padding behind the provider info";
    Flags = 18, "MessagePropertiesHeader Flags";
    LabelLength = 19, "LabelLength";
    MessageClass = 20, "MessageClass";
    CorrelationId = 21, "CorrelationID";
    BodyType = 22, "BodyType";
    ApplicationTag = 23, "ApplicationTag";
    MessageSize = 24, "MessageSize";
    AllocationBodySize = 25, "AllocationBodySize";
    PrivacyLevel = 26, "PrivacyLevel";
    HashAlgorithm = 27, "HashAlgorithm";
    EncryptionAlgorithm = 28, "EncryptionAlgorithm";
    ExtensionSize = 29, "ExtensionSize";
    Label = 30, "label";
    Extension = 31, "extension";
    Body = 32, "body";
    Padding = 33, "padding at the end";
    SecurityHeader = 34, "SecurityHeader";
    MessagePropertiesHeader = 35, "MessagePropertiesHeader";
}

impl fmt::Display for Field {
    fn fmt(&self, f: &mut fmt::Formatter<'_>) -> fmt::Result {
        f.write_str(self.text())
    }
}

/// The field of a byte, and where in it the byte lies. It is displayed as it is read out: `SenderIdSize`,
/// `label unit 7`.
#[derive(Debug, Clone, Copy, PartialEq, Eq, Hash)]
pub struct FieldAt {
    /// The field.
    pub field: Field,
    /// The byte's offset in it; 0 where it is a header.
    pub offset: usize,
}

impl FieldAt {
    /// Which unit of the label or provider name holds the byte, counted from 0; `None` in every other field.
    pub fn unit(self) -> Option<usize> {
        matches!(self.field, Field::Label | Field::ProviderName).then_some(self.offset / 2)
    }

    /// The library's answer, or `None` where it found no field.
    #[inline]
    fn new(found: &ffi::Field) -> Option<Self> {
        let field = Field::ALL.into_iter().find(|&field| field as u32 == found.field)?;
        Some(Self { field, offset: found.offset })
    }
}

impl fmt::Display for FieldAt {
    fn fmt(&self, f: &mut fmt::Formatter<'_>) -> fmt::Result {
        f.write_str(self.field.text())?;
        match self.unit() {
            Some(unit) => write!(f, " unit {unit}"),
            None => Ok(()),
        }
    }
}

/// What holds the byte at a place of `input`, as the section's own fixed bytes lay it out, whether it is accepted
/// or refused. `None` where `input` or its section has no such byte.
///
/// ```
/// use ugbariteyo::{field_at, Field, First};
///
/// let at = field_at(&[0; 56], First::PropertiesHeader, 30).unwrap();
/// assert_eq!((at.field, at.offset), (Field::ApplicationTag, 2));
/// assert_eq!(field_at(&[0; 60], First::PropertiesHeader, 56), None); // behind the section
/// ```
pub fn field_at(input: &[u8], first: First, place: usize) -> Option<FieldAt> {
    FieldAt::new(&ffi::refused_field(input, first, 0, place))
}

impl Refusal {
    /// What a refusal by reading `input` is about, or of a record by reading its section: the header for 1, 8 and
    /// 7 at place 0; else what [`field_at`] finds at its place. `None` for a number above 12, which is about no field.
    ///
    /// A refused writer leaves no section to look into.
    pub fn field(self, input: &[u8], first: First) -> Option<FieldAt> {
        FieldAt::new(&ffi::refused_field(input, first, self.number, self.place))
    }
}
