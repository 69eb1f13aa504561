//! Send requests: legal ones, and ones with a step broken or at its boundary.

use std::borrow::Cow;

use super::lists::CLASSES;
use super::random::{mark_identity, zero_bytes};
use super::Random;
use crate::order::names;
use crate::request::{sent, Request, SENDING};
use crate::LIMIT;

/// A [`Request`] that owns its parts, and the bytes to lend for the output.
#[derive(Debug, Clone, Default)]
pub struct OwnedRequest {
    /// Time to queue.
    pub time_to_queue: u32,
    /// Time to live.
    pub time_to_live: u32,
    /// Priority.
    pub priority: Option<u32>,
    /// Trace.
    pub trace: Option<u32>,
    /// Delivery.
    pub delivery: Option<u32>,
    /// Auditing.
    pub auditing: Option<u32>,
    /// The message class.
    pub class: Option<u32>,
    /// Acknowledge.
    pub acknowledge: Option<u32>,
    /// The application's tag.
    pub application_tag: Option<u32>,
    /// The privacy level.
    pub privacy_level: Option<u32>,
    /// The hash algorithm.
    pub hash_algorithm: Option<u32>,
    /// The encryption algorithm.
    pub encryption_algorithm: Option<u32>,
    /// The body's type.
    pub body_type: Option<u32>,
    /// The provider's type.
    pub provider_type: Option<u32>,
    /// The kind of sender identity.
    pub sender_kind: Option<u32>,
    /// The split number.
    pub split_number: Option<u32>,
    /// The name length that goes with the split number.
    pub provider_name_length: u32,
    /// The correlation identifier.
    pub correlation_id: Option<[u8; 20]>,
    /// The title's units.
    pub title: Vec<u16>,
    /// The sender's identity.
    pub sender_id: Vec<u8>,
    /// The encryption key.
    pub encryption_key: Vec<u8>,
    /// The signature bytes.
    pub signature: Vec<u8>,
    /// The sender's certificate.
    pub sender_cert: Vec<u8>,
    /// The provider name's units.
    pub provider_name: Vec<u16>,
    /// The extension data.
    pub extension: Cow<'static, [u8]>,
    /// The body and its allocation.
    pub body: Option<(Vec<u8>, u64)>,
    /// The message belongs to a transaction.
    pub transaction: bool,
    /// The queue was opened by a direct format name.
    pub direct_queue: bool,
    /// The default provider is used.
    pub default_provider: bool,
    /// Encryption is asked for.
    pub encryption: bool,
    /// The bytes to lend for the output.
    pub room: usize,
}

/// A request's steps.
const STEPS: [&str; 14] = names(&SENDING);

/// A send request: legal, or with one to three steps or two neighbouring ones broken or at their
/// boundary; a title that is cut now and then.
pub fn request(r: &mut Random) -> OwnedRequest {
    let mut request = OwnedRequest::legal(r);
    let steps = r.steps(&STEPS, &["28", "8"]);
    for step in &steps {
        request.break_step(r, step);
    }
    if r.once_in(15) {
        request.break_title(r);
    }
    let length = sent(&request.as_request()).map_or(0, |sent| sent.length);
    request.room = r.room(length, &steps);
    request
}

impl OwnedRequest {
    /// The request, borrowed.
    pub fn as_request(&self) -> Request<'_> {
        Request {
            time_to_queue: self.time_to_queue,
            time_to_live: self.time_to_live,
            priority: self.priority,
            trace: self.trace,
            delivery: self.delivery,
            auditing: self.auditing,
            class: self.class,
            acknowledge: self.acknowledge,
            application_tag: self.application_tag,
            privacy_level: self.privacy_level,
            hash_algorithm: self.hash_algorithm,
            encryption_algorithm: self.encryption_algorithm,
            body_type: self.body_type,
            provider_type: self.provider_type,
            sender_kind: self.sender_kind,
            split_number: self.split_number,
            provider_name_length: self.provider_name_length,
            correlation_id: self.correlation_id,
            title: &self.title,
            sender_id: &self.sender_id,
            encryption_key: &self.encryption_key,
            signature: &self.signature,
            sender_cert: &self.sender_cert,
            provider_name: &self.provider_name,
            extension: &self.extension,
            body: self.body.as_ref().map(|(body, allocation)| (&body[..], *allocation)),
            transaction: self.transaction,
            direct_queue: self.direct_queue,
            default_provider: self.default_provider,
            encryption: self.encryption,
        }
    }

    fn legal(r: &mut Random) -> Self {
        let mut request = Self {
            transaction: r.once_in(3),
            direct_queue: r.once_in(3),
            default_provider: r.once_in(2),
            encryption: r.once_in(2),
            ..Self::default()
        };
        request.draw_numbers(r);
        request.draw_privacy(r);
        request.draw_sender(r);
        request.draw_signature(r);
        request.draw_content(r);
        request
    }

    fn draw_numbers(&mut self, r: &mut Random) {
        let mut at_most = |most: usize| (!r.once_in(3)).then(|| r.below(most + 1) as u32);
        self.priority = at_most(7);
        self.trace = at_most(1);
        self.delivery = at_most(1);
        self.auditing = at_most(3);
        self.acknowledge = at_most(15);
        self.class = at_most(CLASSES.len() - 1).map(|i| CLASSES[i as usize].into());
        self.application_tag = (!r.once_in(3)).then(|| r.word() as u32);
        self.body_type = (!r.once_in(3)).then(|| r.word() as u32);
        self.provider_name_length = r.small() as u32;
        (self.time_to_queue, self.time_to_live) = (r.time(), r.time());
        self.correlation_id = (!r.once_in(3)).then(|| {
            let mut id = [0; 20];
            r.fill(&mut id);
            id
        });
    }

    fn draw_privacy(&mut self, r: &mut Random) {
        self.privacy_level = match (r.once_in(3), self.direct_queue) {
            (true, _) => None,
            (_, true) => Some(0),
            (_, false) => Some(r.pick(&[0, 2])),
        };
        let algorithm = r.cipher();
        self.encryption_algorithm = (self.privacy_level.is_some() || r.once_in(2)).then_some(algorithm);
    }

    fn draw_sender(&mut self, r: &mut Random) {
        let kind = r.below(4);
        self.sender_kind = [None, Some(0), Some(1), Some(2)][kind];
        let length = [0, 0, 8 + 4 * r.below(16), 16][kind];
        self.sender_id = r.bytes(length);
        if kind == 2 {
            mark_identity(&mut self.sender_id);
        }
        self.encryption_key = small_part(r);
        self.sender_cert = small_part(r);
    }

    /// A signature, or none, with what a signature needs.
    fn draw_signature(&mut self, r: &mut Random) {
        self.signature = small_part(r);
        let signed = !self.signature.is_empty();
        let hash = if signed { r.hash_to_sign() } else { r.hash() };
        self.hash_algorithm = (signed || r.once_in(2)).then_some(hash);
        self.draw_provider(r);
        self.draw_split(r);
    }

    /// A split number that step 5 passes, or none.
    fn draw_split(&mut self, r: &mut Random) {
        self.split_number = r.once_in(2).then(|| {
            let count =
                if self.signature.is_empty() { r.below(9) } else { 1 + r.below(self.signature.len()) };
            self.provider_name_length.saturating_add(count as u32)
        });
    }

    /// A provider that step 4 passes.
    fn draw_provider(&mut self, r: &mut Random) {
        self.provider_type = match self.default_provider {
            true => Some(1),
            false => (!r.once_in(3)).then(|| r.pick(&[0, 1, 2, 24, 0xFFFFFFFF])),
        };
        let units = match r.below(12) {
            0 => r.pick(&[1_023, 1_024]),
            _ => 1 + r.small(),
        };
        self.provider_name = units_of(r, units);
    }

    fn draw_content(&mut self, r: &mut Random) {
        let units = r.label_units();
        self.title = units_of(r, units);
        self.extension = small_part(r).into();
        let body = small_part(r);
        let allocation = match r.below(8) {
            0..=2 => (body.len() + r.below(20)) as u64,
            3 => LIMIT - r.below(2) as u64,
            _ => body.len() as u64,
        };
        self.body = (!r.once_in(4)).then_some((body, allocation));
    }

    /// Breaks, or takes to its boundary, what one of the [`STEPS`] looks at.
    fn break_step(&mut self, r: &mut Random, step: &str) {
        match step {
            "20" => self.break_range(r),
            "10" => {
                let class = u32::from(r.odd_class());
                self.class = Some(if r.once_in(6) { class | 0x1_0000 } else { class });
            }
            "21" => {
                self.privacy_level = Some(r.pick(&[0, 1, 2, 3, 4, 5, 255, 256, 258, 65_537, 0xFFFFFFFF]));
            }
            "22" => {
                self.direct_queue = true;
                self.privacy_level = r.pick(&[None, Some(0), Some(1), Some(1), Some(2), Some(3)]);
                self.encryption_algorithm = r.pick(&[None, Some(0x6610), Some(0x6801)]);
            }
            "23" => {
                self.encryption_algorithm = None;
                self.privacy_level = r.pick(&[None, Some(0), Some(1), Some(2)]);
            }
            "24" => {
                self.hash_algorithm = None;
                let length = r.below(3);
                self.signature = r.bytes(length);
            }
            "29" => self.break_retired(r),
            "25" => self.break_identity(r),
            "26" => self.break_provider(r),
            "27" => self.break_split(r),
            "28" => self.lengthen_part(r),
            "11" => self.break_allocation(r),
            "8" => self.lengthen_section(r),
            _ => {} // 13 is about the output that is lent
        }
    }

    /// 20.
    fn break_range(&mut self, r: &mut Random) {
        let most = [7, 1, 1, 15, 3];
        let which = r.below(5);
        let over = r.pick(&[0, 1, 1, 2, 8, 249, 256, 65_536, 0x80000000]);
        let fields = [
            &mut self.priority,
            &mut self.trace,
            &mut self.delivery,
            &mut self.acknowledge,
            &mut self.auditing,
        ];
        for (i, field) in fields.into_iter().enumerate() {
            if i == which {
                *field = Some(most[i] + over);
            }
        }
    }

    /// 29 and next to it, by the hash of a signature, which may be empty or cut, by privacy, or by
    /// both.
    fn break_retired(&mut self, r: &mut Random) {
        let by = r.below(4);
        if by < 2 {
            let length = r.pick(&[0, 1, 2, 9]);
            self.signature = r.bytes(length);
            let hashes = [0x8000, 0x8001, 0x8001, 0x8002, 0x8002, 0x8003, 0x8003, 0x8004, 0x800C, 0x18001];
            self.hash_algorithm = Some(r.pick(&hashes));
            self.draw_provider(r);
            self.draw_split(r);
        }
        if by > 0 {
            self.direct_queue = false;
            self.privacy_level = Some(r.pick(&[0, 1, 1, 1, 2]));
            self.encryption_algorithm = Some(r.cipher());
        }
    }

    /// 25.
    fn break_identity(&mut self, r: &mut Random) {
        let kinds = [0, 1, 1, 2, 3, 4, 255, 256, 257, 258, 65_537, 0xFFFFFFFF];
        self.sender_kind = (!r.once_in(8)).then(|| r.pick(&kinds));
        let length =
            r.pick(&[0, 1, 4, 7, 8, 9, 10, 12, 15, 16, 17, 20, 64, 67, 68, 69, 72, 76, 128, 264, 272, 1_032]);
        self.sender_id = r.bytes(length);
        mark_identity(&mut self.sender_id);
        if r.once_in(3) && length >= 2 {
            self.sender_id[r.below(2)] ^= 1 << r.below(8);
        }
    }

    /// 26.
    fn break_provider(&mut self, r: &mut Random) {
        self.sign(r);
        self.default_provider = r.once_in(3);
        self.provider_type = r.pick(&[None, Some(0), Some(1), Some(2), Some(257), Some(0x1_0001)]);
        let units = r.pick(&[0, 1, 2, 3, 20, 1_023, 1_024, 1_025, 1_026]);
        self.provider_name = units_of(r, units);
        if r.once_in(2) && units != 0 {
            let at = r.pick(&[0, units / 2, units - 1]);
            self.provider_name[at] = 0;
        }
    }

    /// 27, with the difference below 1, at its boundaries, or right only where it wraps.
    fn break_split(&mut self, r: &mut Random) {
        self.sign(r);
        let count = match r.below(4) {
            0 => r.below(3),
            1 => r.below(self.signature.len() + 3),
            2 => self.signature.len() + r.below(2),
            _ => r.pick(&[0, 1, 255, 256, 65_536]),
        } as u32;
        self.provider_name_length =
            r.pick(&[0, 1, 5, 300, 65_535, 65_536, 0x7FFFFFFF, 0xFFFFFFF0, 0xFFFFFFFF]);
        if r.once_in(3) {
            // The number of the name that is given, which does not count.
            self.provider_name_length = self.provider_name.len() as u32;
        }
        self.split_number = Some(match r.below(6) {
            0 => self.provider_name_length.wrapping_sub(count),
            _ => self.provider_name_length.wrapping_add(count),
        });
    }

    /// 11.
    fn break_allocation(&mut self, r: &mut Random) {
        let body = small_part(r);
        let size = body.len() as u64;
        let allocation = match r.below(6) {
            0 => size.wrapping_sub(1),
            1 => r.pick(&[0, LIMIT - 1, LIMIT, LIMIT + 1, LIMIT + 4, u64::MAX]),
            2 => (1 << 32) + size,
            3 => (1 << r.below(64)) + size,
            4 => size + 1,
            _ => size,
        };
        self.body = Some((body, allocation));
    }

    /// Titles whose cut is at 249, at a zero unit, or at neither.
    fn break_title(&mut self, r: &mut Random) {
        let units = r.pick(&[1, 2, 247, 248, 249, 250, 251, 252, 256, 300, 1_000]);
        self.title = units_of(r, units);
        if r.once_in(2) {
            let at = r.pick(&[0, 1, units / 2, units - 1, 247, 248, 249, 250]);
            self.title[at.min(units - 1)] = 0;
        }
    }

    /// Makes a request that is not signed one that steps 2, 4 and 5 pass.
    fn sign(&mut self, r: &mut Random) {
        if self.signature.is_empty() {
            let length = 1 + r.below(12);
            self.signature = r.bytes(length);
            self.hash_algorithm = Some(r.hash_to_sign());
            self.draw_provider(r);
            self.split_number = None;
        }
    }

    /// 28 and its boundary, in a key, a certificate or a signature, cut or not.
    fn lengthen_part(&mut self, r: &mut Random) {
        let length = r.pick(&[65_534, 65_535, 65_535, 65_536, 65_536, 65_537, 65_540]);
        match r.below(4) {
            0 => self.encryption_key = r.bytes(length),
            1 => self.sender_cert = r.bytes(length),
            2 => {
                self.sign(r);
                self.signature = r.bytes(length);
            }
            _ => {
                self.sign(r);
                let before = r.pick(&[0, 1, 8]);
                self.signature = r.bytes(before + length);
                self.split_number = Some(self.provider_name_length.saturating_add(length as u32));
            }
        }
    }

    /// 8, by an extension that is zero all through; or its boundary, by an extension or a body.
    fn lengthen_section(&mut self, r: &mut Random) {
        if !r.once_in(12) {
            self.extension = zero_bytes(LIMIT as usize);
            return;
        }
        self.extension = Cow::default();
        self.body = None;
        let length = sent(&self.as_request()).map_or(56, |sent| sent.length);
        let end = LIMIT as usize - length - 6 + r.pick(&[0, 2, 3, 4, 5, 6, 7, 7, 8, 8, 9, 10, 11]);
        if r.once_in(2) {
            self.extension = zero_bytes(end);
        } else {
            self.body = Some((vec![0; end], end as u64));
        }
    }
}

fn small_part(r: &mut Random) -> Vec<u8> {
    let length = r.small();
    r.bytes(length)
}

fn units_of(r: &mut Random, count: usize) -> Vec<u16> {
    (0..count).map(|_| r.unit()).collect()
}
