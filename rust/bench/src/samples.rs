//! The sections, the request and the queue format that are timed.

use compare::library::first;
use independent::request::Request;
use independent::SectionValues;
use ugbariteyo::{BodyValue, First};

/// Parts of a section, which own their bytes.
#[derive(Clone, Default)]
pub struct Sample {
    /// What it is called in the table.
    pub name: String,
    /// Whether a SecurityHeader stands first.
    pub security_first: bool,
    key: Vec<u8>,
    signature: Vec<u8>,
    certificate: Vec<u8>,
    provider_info: Vec<u8>,
    label: Vec<u8>,
    extension: Vec<u8>,
    body: Vec<u8>,
    /// Whether the body is a number: plain, and a float of 8 bytes.
    number: bool,
}

/// A SID with five sub-authorities.
const SENDER_ID: [u8; 28] =
    [1, 5, 0, 0, 0, 0, 0, 5, 21, 0, 0, 0, 1, 2, 3, 4, 5, 6, 7, 8, 9, 10, 11, 12, 0xF4, 1, 0, 0];
const PROVIDER_NAME: &str = "Microsoft Base Cryptographic Provider v1.0";

/// Lengths of an extension or a body; the last makes the longest section without security and label.
const LENGTHS: [(&str, usize); 5] =
    [("none", 0), ("100 bytes", 100), ("4 KB", 4_096), ("64 KB", 65_536), ("4 MB", 4_194_248)];

impl Sample {
    /// No security, and a body of this length.
    pub fn plain(name: &str, body: usize) -> Self {
        Self { name: name.into(), body: bytes(body), ..Self::default() }
    }

    /// Every security part, and a label of 250 units.
    pub fn secured(name: &str) -> Self {
        Self {
            security_first: true,
            key: bytes(128),
            signature: bytes(128),
            certificate: bytes(1_000),
            provider_info: provider_info(PROVIDER_NAME),
            label: text(&"x".repeat(249)),
            extension: bytes(20),
            ..Self::plain(name, 100)
        }
    }

    /// The longest section, almost all of it body.
    pub fn longest(name: &str) -> Self {
        Self::plain(name, LENGTHS[4].1)
    }

    /// The same with a body of 8 bytes that is a number.
    pub fn with_number(self) -> Self {
        Self { number: true, body: bytes(8), ..self }
    }

    /// No security, and a label of so many units, null included; of 0 there is none.
    pub fn labelled(name: &str, units: usize) -> Self {
        let label = units.checked_sub(1).map_or_else(Vec::new, |units| text(&"x".repeat(units)));
        Self { label, ..Self::plain(name, 100) }
    }

    /// Samples of which one part grows.
    pub fn growing() -> Vec<Self> {
        let labels = [0, 10, 50, 250].map(|units| Self::labelled(&format!("label, {units} units"), units));
        let names = [2, 50, 1_000].map(|units| Self {
            name: format!("provider name, {units} units"),
            provider_info: provider_info(&"x".repeat(units - 1)),
            ..Self::secured("")
        });
        let bodies = LENGTHS.map(|(name, length)| Self::plain(&format!("body, {name}"), length));
        let extensions = LENGTHS.map(|(name, length)| Self {
            name: format!("extension, {name}"),
            extension: bytes(length),
            ..Self::default()
        });
        [&labels[..], &names, &bodies, &extensions].concat()
    }

    /// Which header stands first.
    pub fn first(&self) -> First {
        first(self.security_first)
    }

    /// What the section writer takes.
    pub fn values(&self) -> SectionValues<'_> {
        SectionValues {
            security_first: self.security_first,
            security_flags: if self.number { 0x0081 } else { 0x00A1 },
            sender_id: &SENDER_ID,
            encryption_key: &self.key,
            signature: &self.signature,
            sender_cert: &self.certificate,
            provider_info: &self.provider_info,
            flags: 5,
            message_class: 0,
            correlation_id: [9; 20],
            body_type: if self.number { BodyValue::VT_R8 } else { 8 },
            application_tag: 7,
            allocation_body_size: self.body.len() as u64,
            privacy_level: 1,
            hash_algorithm: 0x8003,
            encryption_algorithm: 0x6801,
            label: &self.label,
            extension: &self.extension,
            body: &self.body,
        }
    }

    /// The section.
    pub fn section(&self) -> Vec<u8> {
        let parts = [&self.key, &self.signature, &self.certificate, &self.provider_info];
        let parts = parts.into_iter().chain([&self.label, &self.extension, &self.body]);
        let room = 256 + parts.map(Vec::len).sum::<usize>();
        written(room, |out| independent::write_section(&self.values(), out))
    }

    /// The section as a record of a day's file.
    pub fn record(&self) -> Vec<u8> {
        record(self.security_first, &self.section())
    }

    /// A day's file of so many records, each this one.
    pub fn day(&self, records: usize) -> Vec<u8> {
        self.record().repeat(records)
    }
}

/// The record of a day's file with this section.
pub fn record(security_first: bool, section: &[u8]) -> Vec<u8> {
    let length = (section.len() as u32).to_le_bytes();
    [&[0x57, 0x52, u8::from(security_first), 0], &length[..], section].concat()
}

/// The parts of a signed request, which own their bytes.
pub struct RequestSample {
    title: Vec<u16>,
    provider_name: Vec<u16>,
    signature: Vec<u8>,
    body: Vec<u8>,
}

impl RequestSample {
    /// A signed request with a title of 40 units and a body of 100 bytes.
    pub fn new() -> Self {
        Self {
            title: vec![0x61; 40],
            provider_name: PROVIDER_NAME.encode_utf16().collect(),
            signature: bytes(128),
            body: bytes(100),
        }
    }

    /// The request, borrowed.
    pub fn request(&self) -> Request<'_> {
        Request {
            time_to_queue: 3_600,
            time_to_live: 86_400,
            acknowledge: Some(5),
            hash_algorithm: Some(0x8004),
            sender_kind: Some(1),
            sender_id: &SENDER_ID,
            signature: &self.signature,
            provider_type: Some(1),
            provider_name: &self.provider_name,
            title: &self.title,
            body: Some((&self.body, 100)),
            ..Request::default()
        }
    }

    /// Its section.
    pub fn section(&self) -> Vec<u8> {
        written(1_000, |out| independent::request::send(&self.request(), out))
    }
}

/// The image of a direct format name.
pub fn image() -> Vec<u8> {
    [&[3, 0, 0, 0], &text("DIRECT=OS:scanner-07\\private$\\findings")[..]].concat()
}

fn bytes(length: usize) -> Vec<u8> {
    (0..length).map(|i| (i % 251) as u8).collect()
}

/// Provider info: type 1, and this name.
fn provider_info(name: &str) -> Vec<u8> {
    [&[1, 0, 0, 0], &text(name)[..]].concat()
}

/// The bytes of a text with a null added.
fn text(text: &str) -> Vec<u8> {
    text.encode_utf16().chain([0]).flat_map(u16::to_le_bytes).collect()
}

/// What a writer puts into so much room.
fn written<E>(room: usize, write: impl Fn(&mut [u8]) -> Result<usize, E>) -> Vec<u8> {
    let mut out = vec![0; room];
    let Ok(length) = write(&mut out) else { panic!("a sample is legal") };
    out.truncate(length);
    out
}
