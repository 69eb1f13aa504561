//! The properties of a message: of a request once it has its defaults, and of a section that was read.

use std::fmt;

use crate::ffi;
use crate::part::last;
use crate::text::Title;

/// What no section carries.
#[derive(Debug, Clone, Copy, PartialEq, Eq, Hash)]
#[non_exhaustive]
pub struct Handling {
    /// Priority.
    pub priority: u32,
    /// Trace.
    pub trace: u32,
    /// Delivery, 1 in a transaction.
    pub delivery: u32,
    /// Auditing.
    pub auditing: u32,
    /// Whether the message belongs to a transaction.
    pub transaction: bool,
    /// Whether the queue was opened by a direct format name.
    pub direct_queue: bool,
    /// The split number, where the request gives one.
    pub split_number: Option<u32>,
    /// ulProvNameLen.
    pub provider_name_length: u32,
    /// Time to queue, in seconds: the request's, or 0xFFFFFFFF for its 0.
    pub time_to_queue: u32,
    /// Time to live, in seconds: the request's, 0 too.
    pub time_to_live: u32,
}

impl From<&ffi::Handling> for Option<Handling> {
    #[inline]
    fn from(handling: &ffi::Handling) -> Self {
        handling.known.then(|| Handling {
            priority: handling.priority,
            trace: handling.trace,
            delivery: handling.delivery,
            auditing: handling.auditing,
            transaction: handling.transaction,
            direct_queue: handling.direct_queue,
            split_number: handling.split_number.into(),
            provider_name_length: handling.provider_name_length,
            time_to_queue: handling.time_to_queue,
            time_to_live: handling.time_to_live,
        })
    }
}

/// What only a SecurityHeader carries.
#[derive(Debug, Clone, Copy, PartialEq, Eq, Hash)]
#[non_exhaustive]
pub struct Sender {
    /// The sender kind; of a section ST.
    pub kind: u32,
    /// Whether the signature is by the default provider; of a section DE.
    pub default_provider: bool,
    /// Whether encryption is asked, and there is a key; of a section EB.
    pub encryption: bool,
}

impl From<&ffi::Sender> for Option<Sender> {
    #[inline]
    fn from(sender: &ffi::Sender) -> Self {
        sender.known.then_some(Sender {
            kind: sender.kind,
            default_provider: sender.default_provider,
            encryption: sender.encryption,
        })
    }
}

/// The privacy of a message.
#[derive(Debug, Clone, Copy, PartialEq, Eq, Hash)]
pub enum Privacy {
    /// A request's, 0, 1 or 2, which a packet holds as 0, 1 or 3. 1 is retired: only a section has it.
    Request(u32),
    /// A packet's PrivacyLevel that no request's becomes, any but 0, 1 and 3, as the packet holds it.
    Packet(u32),
}

impl From<&ffi::Privacy> for Privacy {
    #[inline]
    fn from(privacy: &ffi::Privacy) -> Self {
        if privacy.packet {
            Self::Packet(privacy.level)
        } else {
            Self::Request(privacy.level)
        }
    }
}

/// The properties of a message, made from a request ([`defaulted`](crate::defaulted)) or from a section that was read
/// ([`Reading::properties`](crate::Reading::properties)). What is `None` is not known: of a request all is known, of a
/// section what it carries. The properties of a request's section are those of the request, but for what is not known.
///
/// Its `Debug` shows no private part.
#[derive(Clone, Copy, PartialEq, Eq, Hash)]
#[non_exhaustive]
pub struct Properties<'a> {
    /// What no section carries, both times among it: `None` of a section.
    pub handling: Option<Handling>,
    /// What only a SecurityHeader carries: `None` of a section without one.
    pub sender: Option<Sender>,
    /// The provider's type, which only provider info carries: `None` of a section without it.
    pub provider_type: Option<u32>,
    /// The class.
    pub message_class: u32,
    /// Acknowledge; of a section Flags.
    pub acknowledge: u32,
    /// The tag.
    pub application_tag: u32,
    /// The privacy.
    pub privacy_level: Privacy,
    /// The hash algorithm.
    pub hash_algorithm: u32,
    /// The encryption algorithm.
    pub encryption_algorithm: u32,
    /// The type of the body.
    pub body_type: u32,
    /// The body's length.
    pub message_size: usize,
    /// How many bytes to allocate for the body.
    pub allocation_body_size: usize,
    /// CorrelationID.
    pub correlation_id: [u8; 20],
    /// The title; of a request as cut, of a section its label without the null.
    pub title: Title<'a>,
    /// The signature; of a request as cut.
    pub signature: &'a [u8],
}

impl<'a> Properties<'a> {
    /// The properties that were found of a message with this CorrelationID, the kept units of this title and the kept
    /// bytes of this signature.
    #[inline]
    pub(crate) fn new(
        found: &ffi::Properties,
        correlation_id: [u8; 20],
        title: Title<'a>,
        signature: &'a [u8],
    ) -> Self {
        Self {
            handling: (&found.handling).into(),
            sender: (&found.sender).into(),
            provider_type: found.provider_type.into(),
            message_class: found.message_class,
            acknowledge: found.acknowledge,
            application_tag: found.application_tag,
            privacy_level: (&found.privacy_level).into(),
            hash_algorithm: found.hash_algorithm,
            encryption_algorithm: found.encryption_algorithm,
            body_type: found.body_type,
            message_size: found.message_size,
            allocation_body_size: found.allocation_body_size,
            correlation_id,
            title: title.kept(found.title),
            signature: last(found.signature, signature),
        }
    }
}

impl fmt::Debug for Properties<'_> {
    fn fmt(&self, f: &mut fmt::Formatter<'_>) -> fmt::Result {
        f.debug_struct("Properties")
            .field("handling", &self.handling)
            .field("sender", &self.sender)
            .field("provider_type", &self.provider_type)
            .field("message_class", &self.message_class)
            .field("acknowledge", &self.acknowledge)
            .field("privacy_level", &self.privacy_level)
            .field("hash_algorithm", &self.hash_algorithm)
            .field("encryption_algorithm", &self.encryption_algorithm)
            .field("body_type", &self.body_type)
            .field("message_size", &self.message_size)
            .field("allocation_body_size", &self.allocation_body_size)
            .field("title", &self.title)
            .finish_non_exhaustive()
    }
}
