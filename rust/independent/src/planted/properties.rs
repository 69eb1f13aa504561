//! Properties other than C-18's: of a request by its times, of a section by what it does not carry.

use crate::properties::{Carried, Handling, Privacy, Properties, Provider, Sender, Units};
use crate::request::{self, Request};
use crate::{number, Refusal, Section};

use super::properties_at;

/// Where ApplicationTag stands in a MessagePropertiesHeader.
const TAG: usize = 28;

/// Wrong times of a request.
#[derive(Debug, Clone, Copy, PartialEq, Eq)]
pub enum WrongTime {
    /// A time to queue of 0 stays 0.
    QueueKept,
    /// Every time to queue becomes 0xFFFFFFFF.
    QueueAlways,
    /// Time to queue is taken for a signed number: what is below 1 becomes 0xFFFFFFFF.
    QueueSigned,
    /// A time to live of 0 becomes 0xFFFFFFFF too.
    LiveDefaulted,
    /// Time to live is at most time to queue.
    LiveBounded,
    /// The two are exchanged.
    Exchanged,
    /// The low 16 bits alone are passed on.
    Cut,
    /// A time to live above time to queue is refused with 20.
    Checked,
    /// Time to live is written as ApplicationTag where none is given.
    Written,
}

impl WrongTime {
    /// All of them.
    pub const ALL: [Self; 9] = [
        Self::QueueKept,
        Self::QueueAlways,
        Self::QueueSigned,
        Self::LiveDefaulted,
        Self::LiveBounded,
        Self::Exchanged,
        Self::Cut,
        Self::Checked,
        Self::Written,
    ];

    /// The wrong times of `request`, to queue and to live; `right` is the right time to queue.
    fn times(self, request: &Request<'_>, right: u32) -> (u32, u32) {
        let (queue, live) = (request.time_to_queue, request.time_to_live);
        match self {
            Self::QueueKept => (queue, live),
            Self::QueueAlways => (u32::MAX, live),
            Self::QueueSigned => (if (queue as i32) < 1 { u32::MAX } else { queue }, live),
            Self::LiveDefaulted => (right, if live == 0 { u32::MAX } else { live }),
            Self::LiveBounded => (right, live.min(right)),
            Self::Exchanged => (live, right),
            Self::Cut => (right & 0xFFFF, live & 0xFFFF),
            Self::Checked | Self::Written => (right, live),
        }
    }

    /// The refusal that is none of 01's.
    fn refusal(self, request: &Request<'_>) -> Result<(), Refusal> {
        if self == Self::Checked && request.time_to_live > request.time_to_queue {
            return Err(Refusal::at_start(number::RANGE));
        }
        Ok(())
    }
}

/// Defaults with wrong times.
pub fn defaulted_timed<'a>(wrong: WrongTime, request: &Request<'a>) -> Result<Properties<'a>, Refusal> {
    wrong.refusal(request)?;
    let properties = request::defaulted(request)?;
    let timed = |handling: Handling| {
        let (time_to_queue, time_to_live) = wrong.times(request, handling.time_to_queue);
        Handling { time_to_queue, time_to_live, ..handling }
    };
    Ok(Properties { handling: properties.handling.map(timed), ..properties })
}

/// Sends with wrong times.
pub fn send_timed(wrong: WrongTime, request: &Request<'_>, out: &mut [u8]) -> Result<usize, Refusal> {
    wrong.refusal(request)?;
    let length = request::send(request, out)?;
    if wrong == WrongTime::Written && request.application_tag.is_none() {
        let at = properties_at(&out[..length], request::sent(request)?.security_first) + TAG;
        out[at..at + 4].copy_from_slice(&request.time_to_live.to_le_bytes());
    }
    Ok(length)
}

/// Wrong properties of a section that was read.
#[derive(Debug, Clone, Copy, PartialEq, Eq)]
pub enum WrongKnown {
    /// What no section carries is known, as 0.
    HandlingZero,
    /// What no section carries is known, as an absent value is.
    HandlingDefaulted,
    /// Kind, provider and encryption are known without a SecurityHeader, as 0.
    SenderZero,
    /// They are known only where there is an identity.
    SenderByIdentity,
    /// The provider's type is known without provider info, as 0.
    ProviderZero,
    /// It is known only where there is a signature.
    ProviderBySignature,
    /// A packet's privacy 3 is a request's 3.
    PrivacyThree,
    /// A packet's privacy 3 is no request's.
    PrivacyUnmapped,
    /// A packet's privacy 2 is a request's 2.
    PrivacyTwo,
    /// A packet's privacy 1, which is retired, is no request's.
    PrivacyRetired,
    /// The level's low byte alone is looked at.
    PrivacyCut,
    /// The title has its null.
    TitleNull,
    /// Encryption is that there is a key.
    EncryptionByKey,
    /// EB without a key counts as not asked.
    EncryptionKeyless,
    /// The X bits of the properties Flags are in acknowledge.
    AcknowledgeX,
    /// The allocation is MessageSize.
    AllocationAsSize,
}

impl WrongKnown {
    /// All of them.
    pub const ALL: [Self; 16] = [
        Self::HandlingZero,
        Self::HandlingDefaulted,
        Self::SenderZero,
        Self::SenderByIdentity,
        Self::ProviderZero,
        Self::ProviderBySignature,
        Self::PrivacyThree,
        Self::PrivacyUnmapped,
        Self::PrivacyTwo,
        Self::PrivacyRetired,
        Self::PrivacyCut,
        Self::TitleNull,
        Self::EncryptionByKey,
        Self::EncryptionKeyless,
        Self::AcknowledgeX,
        Self::AllocationAsSize,
    ];

    fn handling(self) -> Option<Handling> {
        let zero = Handling {
            priority: 0,
            trace: 0,
            delivery: 0,
            auditing: 0,
            transaction: false,
            direct_queue: false,
            split_number: None,
            provider_name_length: 0,
            time_to_queue: 0,
            time_to_live: 0,
        };
        match self {
            Self::HandlingZero => Some(zero),
            Self::HandlingDefaulted => Some(Handling { priority: 3, time_to_queue: u32::MAX, ..zero }),
            _ => None,
        }
    }

    fn sender(self, section: &Section<'_>, right: Option<Sender>) -> Option<Sender> {
        let zero = Sender { kind: 0, default_provider: false, encryption: false };
        let key = !section.key.is_empty();
        match self {
            Self::SenderZero => right.or(Some(zero)),
            Self::SenderByIdentity => right.filter(|_| !section.identity.is_empty()),
            Self::EncryptionByKey => right.map(|sender| Sender { encryption: key, ..sender }),
            Self::EncryptionKeyless => {
                right.map(|sender| Sender { encryption: sender.encryption && key, ..sender })
            }
            _ => right,
        }
    }

    fn provider<'a>(self, section: &Section<'a>, right: Option<Provider<'a>>) -> Option<Provider<'a>> {
        let zero = Provider { kind: 0, name: Units::Given(&[]) };
        match self {
            Self::ProviderZero => right.or(Some(zero)),
            Self::ProviderBySignature => right.filter(|_| !section.signature.is_empty()),
            _ => right,
        }
    }

    fn privacy(self, level: u32) -> Privacy {
        match (self, level) {
            (Self::PrivacyThree, 3) => Privacy::Request(3),
            (Self::PrivacyUnmapped, 3) => Privacy::Packet(3),
            (Self::PrivacyTwo, 2) => Privacy::Request(2),
            (Self::PrivacyRetired, 1) => Privacy::Packet(1),
            (Self::PrivacyCut, _) => Privacy::of_packet(level & 0xFF),
            _ => Privacy::of_packet(level),
        }
    }

    /// What is wrong in what every section carries.
    fn carried<'a>(self, section: &Section<'a>, flags: u8, right: Carried<'a>) -> Carried<'a> {
        let judged = &section.summary.properties;
        let right = Carried { privacy_level: self.privacy(judged.privacy), ..right };
        match self {
            Self::TitleNull => Carried { title: Units::Read(judged.label), ..right },
            Self::AcknowledgeX => Carried { acknowledge: flags.into(), ..right },
            Self::AllocationAsSize => Carried { allocation: judged.message_size.into(), ..right },
            _ => right,
        }
    }
}

/// Reads a section and makes wrong properties of it.
pub fn properties(wrong: WrongKnown, input: &[u8], security_first: bool) -> Result<Properties<'_>, Refusal> {
    let section = crate::read(input, security_first)?;
    let right = Properties::of(&section);
    let flags = input[properties_at(input, security_first)];
    Ok(Properties {
        handling: wrong.handling(),
        sender: wrong.sender(&section, right.sender),
        provider: wrong.provider(&section, right.provider),
        carried: wrong.carried(&section, flags, right.carried),
    })
}
