//! The properties of a message: one type, made from a request or from a section that was read (C-18).

use std::fmt::{self, Debug, Formatter};

use crate::bytes::u16_at;
use crate::section::{Section, Security};

/// The properties. A request's are all known; in those of a section, what it does not carry is none.
#[derive(Debug, Clone, Copy, PartialEq, Eq)]
pub struct Properties<'a> {
    /// What no section carries.
    pub handling: Option<Handling>,
    /// What a section carries "only in a SecurityHeader".
    pub sender: Option<Sender>,
    /// What it carries "only in provider info".
    pub provider: Option<Provider<'a>>,
    /// What every section carries.
    pub carried: Carried<'a>,
}

/// What no section carries: how the message is handled on its way.
#[derive(Debug, Clone, Copy, PartialEq, Eq)]
pub struct Handling {
    /// Priority, 0 to 7.
    pub priority: u32,
    /// Trace, 0 or 1.
    pub trace: u32,
    /// Delivery, 0 or 1; 1 for a transaction.
    pub delivery: u32,
    /// Auditing, 0 to 3.
    pub auditing: u32,
    /// The message belongs to a transaction.
    pub transaction: bool,
    /// The queue was opened by a direct format name.
    pub direct_queue: bool,
    /// The split number, where there is one.
    pub split_number: Option<u32>,
    /// The name length of the request.
    pub provider_name_length: u32,
    /// Time to queue, never 0.
    pub time_to_queue: u32,
    /// Time to live.
    pub time_to_live: u32,
}

/// What only a SecurityHeader carries.
#[derive(Debug, Clone, Copy, PartialEq, Eq)]
pub struct Sender {
    /// The kind of sender identity, 0 to 2.
    pub kind: u32,
    /// The default provider.
    pub default_provider: bool,
    /// Encryption: asked for and with a key, or EB.
    pub encryption: bool,
}

/// What only provider info carries.
#[derive(Debug, Clone, Copy, PartialEq, Eq)]
pub struct Provider<'a> {
    /// The provider's type.
    pub kind: u32,
    /// The provider's name, without a null.
    pub name: Units<'a>,
}

/// What every section carries.
#[derive(Debug, Clone, Copy, PartialEq, Eq)]
pub struct Carried<'a> {
    /// The message class, a listed one.
    pub class: u32,
    /// Acknowledge, 0 to 15.
    pub acknowledge: u32,
    /// The application's tag.
    pub application_tag: u32,
    /// The privacy.
    pub privacy_level: Privacy,
    /// The hash algorithm.
    pub hash_algorithm: u32,
    /// The encryption algorithm.
    pub encryption_algorithm: u32,
    /// The body's type.
    pub body_type: u32,
    /// The body's allocation.
    pub allocation: u64,
    /// The correlation identifier.
    pub correlation_id: [u8; 20],
    /// The title as cut, without the null.
    pub title: Units<'a>,
    /// The sender's identity.
    pub sender_id: &'a [u8],
    /// The encryption key.
    pub encryption_key: &'a [u8],
    /// The signature as cut.
    pub signature: &'a [u8],
    /// The sender's certificate.
    pub sender_cert: &'a [u8],
    /// The extension data.
    pub extension: &'a [u8],
    /// The body; empty where absent.
    pub body: &'a [u8],
}

/// A request's privacy, or a packet's that no request has.
#[derive(Debug, Clone, Copy, PartialEq, Eq)]
pub enum Privacy {
    /// A request's: 0, 1 or 2.
    Request(u32),
    /// A packet's, none of 0, 1 and 3.
    Packet(u32),
}

impl Privacy {
    /// The privacy of a packet's level.
    pub fn of_packet(level: u32) -> Self {
        match level {
            0 | 1 => Self::Request(level),
            3 => Self::Request(2),
            other => Self::Packet(other),
        }
    }

    /// The packet's level: "0, 1 or 3 for a request's 0, 1 or 2".
    pub fn packet_level(self) -> u32 {
        match self {
            Self::Request(2) => 3,
            Self::Request(level) | Self::Packet(level) => level,
        }
    }
}

impl<'a> Properties<'a> {
    /// The properties of a section that was read.
    pub fn of(section: &Section<'a>) -> Self {
        let security = section.summary.security.as_ref();
        Self {
            handling: None,
            sender: security.map(sender),
            provider: security.and_then(provider),
            carried: carried(section),
        }
    }
}

fn sender(header: &Security<'_>) -> Sender {
    Sender {
        kind: header.flags.sender_kind().into(),
        default_provider: header.flags.default_provider(),
        encryption: header.flags.body_encrypted(),
    }
}

fn provider<'a>(header: &Security<'a>) -> Option<Provider<'a>> {
    let name = Units::before_null(header.provider_name);
    header.provider_type.map(|kind| Provider { kind, name })
}

fn carried<'a>(section: &Section<'a>) -> Carried<'a> {
    let judged = &section.summary.properties;
    Carried {
        class: judged.class.into(),
        acknowledge: judged.flags.into(),
        application_tag: section.application_tag,
        privacy_level: Privacy::of_packet(judged.privacy),
        hash_algorithm: judged.hash,
        encryption_algorithm: judged.encryption,
        body_type: judged.body_type,
        allocation: judged.allocation.into(),
        correlation_id: *section.correlation_id,
        title: Units::before_null(judged.label),
        sender_id: section.identity,
        encryption_key: section.key,
        signature: section.signature,
        sender_cert: section.certificate,
        extension: section.extension,
        body: section.body,
    }
}

/// 16-bit units without a null, as a request gives them or as they lie in a section. They are equal where
/// the units are.
#[derive(Clone, Copy)]
pub enum Units<'a> {
    /// As a request gives them.
    Given(&'a [u16]),
    /// As they lie in a section, two bytes each.
    Read(&'a [u8]),
}

impl<'a> Units<'a> {
    /// The units of a text that was read, without its null; none where there is no text.
    fn before_null(text: &'a [u8]) -> Self {
        Self::Read(text.split_last_chunk::<2>().map_or(&[], |(before, _)| before))
    }

    /// How many there are.
    pub fn count(self) -> usize {
        match self {
            Self::Given(units) => units.len(),
            Self::Read(bytes) => bytes.len() / 2,
        }
    }

    /// One after the other.
    pub fn iter(self) -> impl Iterator<Item = u16> + 'a {
        let (given, read) = match self {
            Self::Given(units) => (units, &[][..]),
            Self::Read(bytes) => (&[][..], bytes),
        };
        given.iter().copied().chain(read.chunks_exact(2).map(|unit| u16_at(unit, 0)))
    }

    /// Writes them to the start of `out`, as many as it has room for.
    pub(crate) fn put(self, out: &mut [u8]) {
        let room = out.chunks_exact_mut(2);
        match self {
            Self::Given(units) => {
                room.zip(units).for_each(|(two, unit)| two.copy_from_slice(&unit.to_le_bytes()));
            }
            Self::Read(bytes) => {
                room.zip(bytes.chunks_exact(2)).for_each(|(two, unit)| two.copy_from_slice(unit))
            }
        }
    }
}

impl PartialEq for Units<'_> {
    fn eq(&self, other: &Self) -> bool {
        self.iter().eq(other.iter())
    }
}

impl Eq for Units<'_> {}

impl Debug for Units<'_> {
    fn fmt(&self, f: &mut Formatter<'_>) -> fmt::Result {
        f.debug_list().entries(self.iter()).finish()
    }
}
