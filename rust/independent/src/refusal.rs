//! Refusals: a number and a place, nothing else.

/// Why a call is refused.
#[derive(Debug, Clone, Copy, PartialEq, Eq)]
pub struct Refusal {
    /// One of the numbers in [`number`].
    pub number: u32,
    /// The first byte of the field that failed, in the section that was being read or would be written
    /// (C-17); for 15 the record's number (C-15); 0 for all but these and the S and P steps outside requests.
    pub place: usize,
}

impl Refusal {
    /// The refusal with this number at place 0.
    pub(crate) fn at_start(number: u32) -> Self {
        Self { number, place: 0 }
    }
}

/// The refusal numbers of the paper's table.
pub mod number {
    /// The input is short.
    pub const INPUT_SHORT: u32 = 1;
    /// ST is above 2.
    pub const SENDER_KIND: u32 = 2;
    /// AU or AS is not zero.
    pub const AUTHENTICATED: u32 = 3;
    /// All five sizes are zero, or DP is clear.
    pub const EMPTY: u32 = 4;
    /// SenderCertSize is above 65,535.
    pub const CERTIFICATE: u32 = 5;
    /// The identity's size or first bytes.
    pub const IDENTITY: u32 = 6;
    /// The provider info's size or content.
    pub const PROVIDER: u32 = 7;
    /// Above the limit.
    pub const LIMIT: u32 = 8;
    /// The label's length.
    pub const LABEL_LENGTH: u32 = 9;
    /// The class is not listed.
    pub const CLASS: u32 = 10;
    /// The allocation is below the body's size or above the limit.
    pub const ALLOCATION: u32 = 11;
    /// The label's units.
    pub const LABEL: u32 = 12;
    /// The output is short.
    pub const OUTPUT_SHORT: u32 = 13;
    /// A portion, or a second finish, after the finish.
    pub const AFTER_THE_FINISH: u32 = 14;
    /// A record of a day's file is bad or cut.
    pub const BAD_RECORD: u32 = 15;
    /// A day's file has more records than slots, or than 256.
    pub const TOO_MANY_RECORDS: u32 = 16;
    /// Priority, trace, delivery, acknowledge or auditing of a request is too large.
    pub const RANGE: u32 = 20;
    /// A request's privacy is none of 0, 1, 2.
    pub const PRIVACY: u32 = 21;
    /// A direct queue with privacy not 0.
    pub const DIRECT_PRIVACY: u32 = 22;
    /// Privacy present, encryption algorithm absent.
    pub const ALGORITHM_ABSENT: u32 = 23;
    /// Signature bytes given, hash algorithm absent.
    pub const HASH_ABSENT: u32 = 24;
    /// A request's sender kind or identity.
    pub const REQUEST_IDENTITY: u32 = 25;
    /// A signed request's provider.
    pub const REQUEST_PROVIDER: u32 = 26;
    /// A signed request's split number.
    pub const SPLIT: u32 = 27;
    /// Key, signature or certificate above 65,535 bytes.
    pub const PART_SIZE: u32 = 28;
    /// A request's privacy, or the hash of its signature, is retired.
    pub const RETIRED: u32 = 29;
    /// The queue type is above 8.
    pub const QUEUE_TYPE: u32 = 30;
    /// The queue type does not go with suffix and flags.
    pub const QUEUE_PAIR: u32 = 31;
    /// The value's length is not the queue type's.
    pub const VALUE_LENGTH: u32 = 32;
    /// The queue format's string.
    pub const STRING: u32 = 33;
    /// BodyType is not that of a single number.
    pub const BODY_TYPE: u32 = 60;
    /// MessageSize is not that of the number.
    pub const BODY_SIZE: u32 = 61;
    /// EB is set, so that the body is no number yet.
    pub const BODY_ENCRYPTED: u32 = 62;
}
