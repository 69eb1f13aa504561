//! Refusals: their numbers, meanings and places.

use std::error::Error;
use std::fmt;

/// Why a call was refused, and where.
///
/// The place of a refusal by reading is the offset of what failed in the input, or in all portions joined; by the
/// section writer, that in the section that would be written. The MessagePropertiesHeader begins at p.
///
/// | number | place |
/// |---|---|
/// | 1, 8 | the header's start, 0 or p |
/// | 2, 3 | 0, Flags |
/// | 4 | 0, Flags, where DP is clear; else 2, SenderIdSize |
/// | 5 | 8, SenderCertSize |
/// | 6 | 2, SenderIdSize |
/// | 7 | for ProviderInfoSize 0, the header's start; for the provider name its first unit that breaks the rule |
/// | 9 | p + 1, LabelLength |
/// | 10 | p + 2, MessageClass |
/// | 11 | p + 36, AllocationBodySize |
/// | 12 | the label's first unit that breaks the rule |
/// | 15 | no offset: the record's number in the file, from 0 |
///
/// By the rule only the last unit is zero. The first zero unit before the last one breaks it; where there is none,
/// the last one does. [`field`](Self::field) says which field lies there.
#[derive(Debug, Clone, Copy, PartialEq, Eq, Hash)]
pub struct Refusal {
    /// The number of the refusal: 1 to 16, 20 to 33 or 60 to 62.
    pub number: u32,
    /// Where in the input, or in the section that would be written; for 15 which record; 0 for 13, 14, 16, 28 and 60 to
    /// 62, for requests and for queue formats.
    pub place: usize,
}

impl Refusal {
    /// The refusal by its name, or `None` for a number that is none of the list. The library gives no such
    /// number.
    pub fn kind(self) -> Option<Kind> {
        Kind::ALL.into_iter().find(|&kind| kind as u32 == self.number)
    }
}

impl fmt::Display for Refusal {
    fn fmt(&self, f: &mut fmt::Formatter<'_>) -> fmt::Result {
        write!(f, "refused with {} at {}", self.number, self.place)?;
        match self.kind() {
            Some(kind) => write!(f, ": {kind}"),
            None => Ok(()),
        }
    }
}

impl Error for Refusal {}

macro_rules! kinds {
    ($($name:ident = $number:literal, $text:literal;)*) => {
        /// The refusals by name.
        #[derive(Debug, Clone, Copy, PartialEq, Eq, Hash)]
        #[non_exhaustive]
        #[repr(u32)]
        pub enum Kind {
            $(#[doc = concat!($number, ": ", $text, ".")] $name = $number,)*
        }

        impl Kind {
            /// Every refusal, by number.
            pub const ALL: [Self; [$($number),*].len()] = [$(Self::$name),*];

            /// The rule that was broken.
            pub fn text(self) -> &'static str {
                match self {
                    $(Self::$name => $text,)*
                }
            }
        }
    };
}

// The names and texts of `include/ugbariteyo.h`.
kinds! {
    InputShort = 1, "input ends before the section does";
    SenderKind = 2, "ST above 2";
    AuOrAs = 3, "AU or AS not zero";
    EmptyOrDpClear = 4, "all five sizes zero, or DP clear";
    CertificateSize = 5, "SenderCertSize above 65,535";
    Identity = 6, "SenderIdSize or identity not as ST asks";
    Provider = 7, "ProviderInfoSize or provider info not as DE and signature ask";
    AboveTheLimit = 8, "longer than 4,194,304 bytes";
    LabelLength = 9, "LabelLength above 250, or a label of an odd number of bytes";
    Class = 10, "MessageClass not listed";
    Allocation = 11, "AllocationBodySize below MessageSize or above 4,194,304";
    Label = 12, "label in which not only the last unit is zero";
    OutputShort = 13, "output too short";
    AfterTheFinish = 14, "portion or finish after the finish";
    BadRecord = 15, "wrong or cut record head, or cut section";
    TooManyRecords = 16, "more records than slots, or than 256";
    ValueOutOfRange = 20, "priority above 7, trace or delivery above 1, acknowledge above 15, or auditing above 3";
    Privacy = 21, "privacy not 0, 1 or 2";
    PrivacyOnADirectQueue = 22, "direct queue with privacy not 0";
    AlgorithmAbsent = 23, "privacy present, algorithm absent";
    HashAbsent = 24, "signature bytes given, hash absent";
    RequestIdentity = 25, "sender kind above 2, or identity not as its kind asks";
    RequestProvider = 26, "default provider without type 1, or another provider without a name of 1 to 1,024 units";
    SplitNumber = 27, "split number minus name length below 1 or above the signature bytes given";
    PartTooLarge = 28, "key, signature or certificate above 65,535 bytes";
    Retired = 29, "privacy 1, or signature bytes given with hash MD2, MD4 or MD5";
    QueueType = 30, "queue type above 8";
    QueueSuffix = 31, "suffix and flags do not go with the queue type";
    QueueValue = 32, "value length wrong for the queue type";
    QueueString = 33, "string not ended by its only zero unit, too short or above 1,024 units";
    BodyType = 60, "BodyType none of 3, 4, 5 and 19";
    BodySize = 61, "MessageSize not 4, or not 8 for BodyType 5";
    BodyEncrypted = 62, "EB set";
}

impl fmt::Display for Kind {
    fn fmt(&self, f: &mut fmt::Formatter<'_>) -> fmt::Result {
        f.write_str(self.text())
    }
}
