//! Send requests: checked, given their defaults, and written as sections.

use std::fmt;

use crate::properties::Properties;
use crate::refusal::Refusal;
use crate::section::{First, LIMIT};
use crate::text::Title;
use crate::{ffi, ffi::accepted};

/// A send request. A number that is `None` and a part that is empty are absent; both times are always given, so a
/// request begins with [`Request::new`].
///
/// Its `Debug` shows no private part.
// The numbers that may be absent stand first and lie as in C, so that a call takes them as they are.
#[derive(Clone, Copy, PartialEq, Eq, Hash)]
#[repr(C)]
pub struct Request<'a> {
    /// Priority, 0 to 7.
    pub priority: Option<u32>,
    /// Trace, 0 or 1.
    pub trace: Option<u32>,
    /// Delivery, 0 or 1. A transaction makes it 1.
    pub delivery: Option<u32>,
    /// Auditing, 0 to 3.
    pub auditing: Option<u32>,
    /// The class.
    pub message_class: Option<u32>,
    /// Acknowledge, 0 to 15: the section's Flags.
    pub acknowledge: Option<u32>,
    /// The tag.
    pub application_tag: Option<u32>,
    /// Privacy, 0 or 2; 1, which is 40-bit, is retired. The section's PrivacyLevel is 3 for 2.
    pub privacy_level: Option<u32>,
    /// The hash algorithm; a signature needs one. MD2, MD4 and MD5 (0x8001 to 0x8003) are retired.
    pub hash_algorithm: Option<u32>,
    /// The encryption algorithm; privacy needs one.
    pub encryption_algorithm: Option<u32>,
    /// The type of the body; of one that is a number, [`BodyValue::body_type`](crate::BodyValue::body_type).
    pub body_type: Option<u32>,
    /// The sender kind, 0 to 2.
    pub sender_kind: Option<u32>,
    /// The provider's type.
    pub provider_type: Option<u32>,
    /// The split number: with it, the signature is the last (split number minus `provider_name_length`) bytes
    /// of those given.
    pub split_number: Option<u32>,
    /// ulProvNameLen, which only the split number is held against.
    pub provider_name_length: u32,
    /// ulAbsoluteTimeToQueue: within so many seconds the message has to reach its queue. 0 becomes 0xFFFFFFFF.
    pub time_to_queue: u32,
    /// ulRelativeTimeToLive: within so many seconds the message has to be received. Every number is passed on as
    /// given, 0 too.
    pub time_to_live: u32,
    /// CorrelationID.
    pub correlation_id: Option<[u8; 20]>,
    /// Whether the message belongs to a transaction.
    pub transaction: bool,
    /// Whether the queue was opened by a direct format name.
    pub direct_queue: bool,
    /// Whether the signature is by the default provider.
    pub default_provider: bool,
    /// Whether encryption is asked. Without a key it counts as not asked.
    pub encryption: bool,
    /// The title, in 16-bit units without a null. It ends at its first zero unit, and at 249 units.
    pub title: &'a [u16],
    /// The identity.
    pub sender_id: &'a [u8],
    /// The key.
    pub encryption_key: &'a [u8],
    /// The signature bytes.
    pub signature: &'a [u8],
    /// The certificate.
    pub sender_cert: &'a [u8],
    /// The provider's name, in 16-bit units without a null.
    pub provider_name: &'a [u16],
    /// The extension.
    pub extension: &'a [u8],
    /// The body.
    pub body: Option<Body<'a>>,
}

impl Request<'_> {
    /// A request with these times, in seconds, and everything else absent.
    ///
    /// ```
    /// use ugbariteyo::{defaulted, Request};
    ///
    /// let request = Request { priority: Some(5), ..Request::new(0, 3_600) };
    /// let handling = defaulted(&request)?.handling.unwrap();
    /// assert_eq!((handling.time_to_queue, handling.time_to_live), (0xFFFF_FFFF, 3_600));
    /// # Ok::<(), ugbariteyo::Refusal>(())
    /// ```
    pub const fn new(time_to_queue: u32, time_to_live: u32) -> Self {
        Self {
            priority: None,
            trace: None,
            delivery: None,
            auditing: None,
            message_class: None,
            acknowledge: None,
            application_tag: None,
            privacy_level: None,
            hash_algorithm: None,
            encryption_algorithm: None,
            body_type: None,
            sender_kind: None,
            provider_type: None,
            split_number: None,
            provider_name_length: 0,
            time_to_queue,
            time_to_live,
            correlation_id: None,
            transaction: false,
            direct_queue: false,
            default_provider: false,
            encryption: false,
            title: &[],
            sender_id: &[],
            encryption_key: &[],
            signature: &[],
            sender_cert: &[],
            provider_name: &[],
            extension: &[],
            body: None,
        }
    }

    /// So many bytes are room enough for the section.
    fn room(&self) -> usize {
        let body = self.body.unwrap_or_default().bytes;
        let parts =
            [self.sender_id, self.encryption_key, self.signature, self.sender_cert, self.extension, body];
        let texts = [self.title, self.provider_name].map(|text| 2 * (text.len() + 1) + 3);
        let sizes = parts.iter().map(|part| part.len() + 3).chain(texts);
        sizes.fold(16 + 4 + 56, usize::saturating_add).min(LIMIT)
    }
}

/// The body of a request.
#[derive(Clone, Copy, PartialEq, Eq, Hash, Default)]
pub struct Body<'a> {
    /// Its bytes.
    pub bytes: &'a [u8],
    /// How many bytes to allocate for it: at least as many as it has.
    pub allocation: usize,
}

impl<'a> From<&'a [u8]> for Body<'a> {
    /// A body with no more allocated than it has.
    fn from(bytes: &'a [u8]) -> Self {
        Self { bytes, allocation: bytes.len() }
    }
}

impl fmt::Debug for Body<'_> {
    fn fmt(&self, f: &mut fmt::Formatter<'_>) -> fmt::Result {
        f.debug_struct("Body").field("allocation", &self.allocation).finish_non_exhaustive()
    }
}

impl fmt::Debug for Request<'_> {
    fn fmt(&self, f: &mut fmt::Formatter<'_>) -> fmt::Result {
        f.debug_struct("Request")
            .field("priority", &self.priority)
            .field("trace", &self.trace)
            .field("delivery", &self.delivery)
            .field("auditing", &self.auditing)
            .field("message_class", &self.message_class)
            .field("acknowledge", &self.acknowledge)
            .field("privacy_level", &self.privacy_level)
            .field("hash_algorithm", &self.hash_algorithm)
            .field("encryption_algorithm", &self.encryption_algorithm)
            .field("body_type", &self.body_type)
            .field("sender_kind", &self.sender_kind)
            .field("provider_type", &self.provider_type)
            .field("split_number", &self.split_number)
            .field("provider_name_length", &self.provider_name_length)
            .field("time_to_queue", &self.time_to_queue)
            .field("time_to_live", &self.time_to_live)
            .field("transaction", &self.transaction)
            .field("direct_queue", &self.direct_queue)
            .field("default_provider", &self.default_provider)
            .field("encryption", &self.encryption)
            .finish_non_exhaustive()
    }
}

/// The defaulted properties of a request: each absent value has its default, title and signature are cut.
///
/// # Errors
///
/// By the steps of a request in their order: 20 and 10, 21 to 24, 29, 25 to 28, then 11 and 8. The place is 0.
///
/// ```
/// use ugbariteyo::{defaulted, Kind, Request};
///
/// let properties = defaulted(&Request { acknowledge: Some(5), ..Request::new(60, 3_600) })?;
/// assert_eq!(properties.handling.map(|handling| handling.priority), Some(3));
/// assert_eq!(properties.acknowledge, 5);
///
/// let md5 = Request { signature: b"signed", hash_algorithm: Some(0x8003), ..Request::new(60, 3_600) };
/// assert_eq!(defaulted(&md5).unwrap_err().kind(), Some(Kind::Retired));
/// # Ok::<(), ugbariteyo::Refusal>(())
/// ```
#[inline]
pub fn defaulted<'a>(request: &Request<'a>) -> Result<Properties<'a>, Refusal> {
    let answer = ffi::defaulted(request);
    accepted(answer.refusal)?;
    let title = Title::of_units(request.title);
    Ok(Properties::new(&answer.properties, answer.correlation_id, title, request.signature))
}

/// A section that was sent.
#[derive(Debug, Clone, Copy, PartialEq, Eq, Hash)]
#[non_exhaustive]
pub struct Sent {
    /// Its length.
    pub length: usize,
    /// Which header stands first in it: how to read it.
    pub first: First,
}

/// Writes the section of a request to the front of `out`. Bytes of `out` behind the section stay as they were.
///
/// # Errors
///
/// As of [`defaulted`], then 13 where `out` is shorter than the section. Nothing is written then.
#[inline]
pub fn send(request: &Request<'_>, out: &mut [u8]) -> Result<Sent, Refusal> {
    let answer = ffi::send(request, out);
    accepted(answer.refusal)?;
    Ok(Sent { length: answer.length, first: answer.security_first })
}

/// The section of a request in a vector of its own, and which header stands first in it.
///
/// # Errors
///
/// As of [`defaulted`].
///
/// ```
/// use ugbariteyo::{read, send_vec, Body, Request};
///
/// let title: Vec<u16> = "Rope 7".encode_utf16().collect();
/// let body = Body::from(&b"second"[..]);
/// let request = Request { title: &title, body: Some(body), ..Request::new(60, 3_600) };
/// let (section, first) = send_vec(&request)?;
/// assert_eq!(read(&section, first)?.label_text().to_string(), "Rope 7");
/// # Ok::<(), ugbariteyo::Refusal>(())
/// ```
pub fn send_vec(request: &Request<'_>) -> Result<(Vec<u8>, First), Refusal> {
    let mut section = vec![0; request.room()];
    let Sent { length, first } = send(request, &mut section)?;
    section.truncate(length);
    Ok((section, first))
}
