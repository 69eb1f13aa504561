//! The Flags of the two headers.

/// The Flags of a SecurityHeader. Only bits 0 to 11 count; reading gives the others as zero.
#[derive(Debug, Clone, Copy, PartialEq, Eq, Hash, Default)]
#[repr(transparent)]
pub struct SecurityFlags(pub u16);

impl SecurityFlags {
    /// AU: the message is authenticated. Refused where it is set.
    pub const AU: u16 = 0x0010;
    /// EB: the body is encrypted.
    pub const EB: u16 = 0x0020;
    /// DE: the default cryptographic provider is used.
    pub const DE: u16 = 0x0040;
    /// DP: security data is present. Refused where it is clear.
    pub const DP: u16 = 0x0080;
    /// AS: the type of signature. Refused where it is not 0.
    pub const AS: u16 = 0x0F00;

    /// Sender kind 0: no identity.
    pub const SENDER_NONE: u16 = 0;
    /// Sender kind 1: the identity is a SID.
    pub const SENDER_SID: u16 = 1;
    /// Sender kind 2: the identity is the GUID of a queue manager.
    pub const SENDER_QUEUE_MANAGER: u16 = 2;

    /// ST, the sender kind: 0, 1 or 2 in an accepted section.
    pub fn sender_kind(self) -> u16 {
        self.0 & 0x000F
    }

    /// EB: whether the body is encrypted.
    pub fn body_encrypted(self) -> bool {
        self.0 & Self::EB != 0
    }

    /// DE: whether the default cryptographic provider is used.
    pub fn default_provider(self) -> bool {
        self.0 & Self::DE != 0
    }
}

/// The Flags of a MessagePropertiesHeader, which ask for acknowledgments. Only bits 0 to 3 count; reading
/// gives the others as zero.
#[derive(Debug, Clone, Copy, PartialEq, Eq, Hash, Default)]
#[repr(transparent)]
pub struct PropertiesFlags(pub u8);

impl PropertiesFlags {
    /// PA: a positive acknowledgment where the message is delivered.
    pub const PA: u8 = 0x01;
    /// PR: a positive acknowledgment where the message is retrieved.
    pub const PR: u8 = 0x02;
    /// NA: a negative acknowledgment where the message is not delivered.
    pub const NA: u8 = 0x04;
    /// NR: a negative acknowledgment where the message is not retrieved.
    pub const NR: u8 = 0x08;

    /// Whether all the given bits are set.
    pub fn has(self, bits: u8) -> bool {
        self.0 & bits == bits
    }
}
