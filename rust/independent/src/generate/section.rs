//! Sections to be read: valid ones, ones that break a chosen step, and ones cut, flipped or
//! extended afterwards.

use super::lists::CLASSES;
use super::Random;
use crate::order::names;
use crate::steps::READING;
use crate::{LIMIT, PROPERTIES_FIXED, SECURITY_FIXED};

/// An input and whether a SecurityHeader stands first in it.
#[derive(Debug, Clone)]
pub struct Case {
    /// The input.
    pub bytes: Vec<u8>,
    /// How it is to be read.
    pub security_first: bool,
}

/// The values of a section before it is laid out. Sizes are as declared; the parts' bytes are made
/// up when it is laid out, and only as many as `room` allows.
#[derive(Debug, Clone, Default)]
pub struct Draft {
    /// Whether a SecurityHeader stands first.
    pub security_first: bool,
    /// The SecurityHeader's Flags.
    pub flags: u16,
    /// SenderIdSize.
    pub identity: u16,
    /// EncryptionKeySize.
    pub key: u16,
    /// SignatureSize.
    pub signature: u16,
    /// SenderCertSize.
    pub certificate: u32,
    /// ProviderInfoSize.
    pub provider: u32,
    /// The first identity byte for ST 1.
    pub sid_revision: u8,
    /// The second identity byte for ST 1.
    pub sid_count: u8,
    /// A unit of the provider name, counted from its end, that is zero (0: the last, as it has to be).
    pub provider_zeros: Vec<usize>,
    /// The properties Flags.
    pub acknowledge: u8,
    /// LabelLength.
    pub label: u8,
    /// MessageClass.
    pub class: u16,
    /// MessageSize.
    pub body: u32,
    /// AllocationBodySize.
    pub allocation: u32,
    /// PrivacyLevel.
    pub privacy: u32,
    /// HashAlgorithm.
    pub hash: u32,
    /// EncryptionAlgorithm.
    pub cipher: u32,
    /// ExtensionSize.
    pub extension: u32,
    /// As `provider_zeros`, for the label.
    pub label_zeros: Vec<usize>,
    /// The most bytes that are laid out.
    pub room: usize,
}

/// The steps of reading.
pub(super) const STEPS: [&str; 19] = names(&READING);

impl Draft {
    /// A draft that every step passes, with small parts.
    pub fn valid(r: &mut Random) -> Self {
        let mut draft = Self { security_first: r.below(5) < 3, room: usize::MAX, ..Self::default() };
        draft.draw_security(r);
        draft.draw_properties(r);
        draft
    }

    fn draw_security(&mut self, r: &mut Random) {
        let kind = r.below(3) as u16;
        let sub_authorities = r.below(16) as u16;
        self.identity = [0, 8 + 4 * sub_authorities, 16][usize::from(kind)];
        self.sid_revision = 1;
        self.sid_count = sub_authorities as u8;
        self.key = r.small() as u16;
        self.signature = r.small() as u16;
        self.certificate = r.small() as u32;
        let default_provider = r.once_in(2);
        let units = 1 + r.small() as u32;
        self.provider = match (default_provider, self.signature != 0) {
            (true, _) => 0,
            (false, true) => 4 + 2 * (1 + units),
            (false, false) if r.once_in(2) => 0,
            (false, false) => 4 + 2 * units,
        };
        self.provider_zeros = vec![0];
        if self.security_length() == SECURITY_FIXED {
            self.key = 1 + r.below(6) as u16;
        }
        self.flags = kind | 0x80 | (r.word() as u16 & 0xF020);
        if default_provider {
            self.flags |= 0x40;
        }
    }

    fn draw_properties(&mut self, r: &mut Random) {
        self.acknowledge = r.word() as u8;
        self.label = r.label_units() as u8;
        self.label_zeros = vec![0];
        self.class = r.pick(&CLASSES);
        self.body = r.small() as u32;
        self.allocation = match r.below(4) {
            0 => self.body + r.below(20) as u32,
            1 if r.once_in(4) => LIMIT as u32 - r.below(2) as u32,
            _ => self.body,
        };
        self.privacy = r.privacy();
        self.hash = r.hash();
        self.cipher = r.cipher();
        self.extension = r.small() as u32;
    }

    /// Breaks, or takes to its boundary, what one of the [`STEPS`] looks at.
    pub(super) fn break_step(&mut self, r: &mut Random, step: &str) {
        if step.starts_with('S') && !r.once_in(16) {
            self.security_first = true;
        }
        match step {
            "S1" => self.room = r.below(SECURITY_FIXED + 2),
            "S2" => self.flags = self.flags & 0xFFF0 | r.below(16) as u16,
            "S3" => self.flags |= r.pick(&[0x10, 0x100, 0x200, 0x400, 0x800, 0xF00, 0xF10]),
            "S4" => self.break_presence(r),
            "S5" => self.break_certificate(r),
            "S6" => self.break_identity_size(r),
            "S7" => self.break_provider_size(r),
            "S8" => self.break_header_limit(r),
            "S9" => self.room = near(r, self.security_length()),
            "S10" => self.break_identity(r),
            "S11" => self.break_provider(r),
            "P1" => self.room = self.properties_at() + r.pick(&[0, 1, 28, 52, 54, 55, 56, 57]),
            "P2" => self.label = r.pick(&[249, 250, 251, 252, 255]),
            "P3" => self.class = r.odd_class(),
            "P4" => self.break_allocation(r),
            "P5" => self.break_section_limit(r),
            "P6" => self.room = near(r, self.length()),
            "P7" => self.break_label(r),
            _ => {} // 13 is about the output that is lent
        }
    }

    /// S4: DP clear, every size zero, both, or every size zero but one.
    fn break_presence(&mut self, r: &mut Random) {
        if r.once_in(3) {
            self.flags &= !0x80;
            if !r.once_in(3) {
                return;
            }
        }
        let whole = self.clone();
        (self.identity, self.key, self.signature) = (0, 0, 0);
        (self.certificate, self.provider) = (0, 0);
        if r.once_in(2) {
            self.flags &= 0xFFF0;
        }
        match r.below(10) {
            0 => self.identity = whole.identity.max(8),
            1 => self.key = whole.key.max(1),
            2 => self.signature = whole.signature.max(1),
            3 => self.certificate = whole.certificate.max(1),
            4 => self.provider = whole.provider.max(6),
            _ => {}
        }
    }

    /// S5.
    fn break_certificate(&mut self, r: &mut Random) {
        self.certificate =
            r.pick(&[65_534, 65_535, 65_536, 65_537, 65_600, 0x01000000, 0x80000000, 0xFFFFFFFC, 0xFFFFFFFF]);
    }

    /// S6.
    fn break_identity_size(&mut self, r: &mut Random) {
        self.identity = r.pick(&[
            0, 1, 4, 6, 7, 8, 9, 10, 12, 14, 15, 16, 17, 20, 67, 68, 69, 70, 72, 76, 128, 264, 272, 0x1000,
            65_532, 65_535,
        ]);
        self.sid_count = (self.identity.wrapping_sub(8) / 4) as u8;
        if r.once_in(2) {
            self.flags = self.flags & 0xFFF0 | r.below(3) as u16;
        }
    }

    /// S7.
    fn break_provider_size(&mut self, r: &mut Random) {
        self.provider = r.pick(&[
            0, 1, 2, 3, 4, 5, 6, 7, 8, 9, 10, 11, 12, 13, 65_536, 0xFFFFFFFF, 0xFFFFFFFE, 0x80000000,
        ]);
        if r.once_in(2) {
            self.flags &= !0x40;
        }
        if r.once_in(2) {
            self.signature = r.below(2) as u16;
        }
    }

    /// S8: the header's length at the limit or next to it, or past 2^32.
    fn break_header_limit(&mut self, r: &mut Random) {
        self.flags &= !0x40;
        let others = self.security_length() as u64 - padded(self.provider.into());
        self.provider = match r.below(4) {
            0 => u32::MAX - 1 - 2 * r.below(40) as u32,
            1 => r.word() as u32 & !1,
            _ => ((LIMIT - others.min(LIMIT)) as i64 + r.pick(&[-60, -58, -56, -54, -4, -2, 0, 2, 4])) as u32,
        };
        self.room = r.below(400);
    }

    /// S10.
    fn break_identity(&mut self, r: &mut Random) {
        let k = r.below(16) as u8;
        self.flags = self.flags & 0xFFF0 | 1;
        self.identity = 8 + 4 * u16::from(k);
        self.sid_count = k;
        match r.below(5) {
            0 => self.sid_revision = r.pick(&[0, 2, 3, 0x11, 0x81, 0xFF]),
            1 => self.sid_count = k.wrapping_add(r.pick(&[1, 255, 16, 128])),
            2 => self.sid_count = r.word() as u8,
            3 => self.sid_revision = k,
            _ => {}
        }
    }

    /// S11.
    fn break_provider(&mut self, r: &mut Random) {
        self.flags &= !0x40;
        let units = r.name_units();
        self.provider = 4 + 2 * units as u32;
        self.provider_zeros = r.zeros(units);
    }

    /// P4.
    fn break_allocation(&mut self, r: &mut Random) {
        let limit = LIMIT as u32;
        match r.below(6) {
            0 => self.allocation = self.body.wrapping_sub(1),
            1 => self.allocation = r.pick(&[limit - 1, limit, limit + 1, limit + 4, u32::MAX, 0x8000_0000]),
            2 => {
                self.body = r.pick(&[limit - 1, limit, limit + 1, u32::MAX]);
                self.allocation = r.pick(&[limit - 1, limit, limit + 1, u32::MAX]);
            }
            3 => self.allocation = 0,
            4 => self.body = self.allocation.wrapping_add(1),
            _ => self.allocation = self.allocation.max(self.body),
        }
        self.room = self.room.min(600 + r.below(100));
    }

    /// P5: the section's length at the limit or next to it, or past 2^32.
    fn break_section_limit(&mut self, r: &mut Random) {
        let before = self.before_extension() as u64;
        let left = LIMIT.saturating_sub(before) as i64 + 8;
        let end = (left + r.pick(&[-16, -13, -12, -11, -10, -9, -8, -7, -6, -5, -4, -3])).max(0) as u64;
        match r.below(4) {
            0 => {
                self.body = end.min(LIMIT) as u32;
                self.extension = (end - u64::from(self.body)) as u32;
                self.allocation = self.body;
            }
            1 => {
                self.extension = end.saturating_sub(self.body.into()) as u32;
                self.allocation = self.allocation.max(self.body);
            }
            2 => {
                // A sum that is small again in 32 bits.
                self.body = LIMIT as u32 - r.below(64) as u32;
                self.allocation = self.body;
                self.extension = (0u32.wrapping_sub(self.body)).wrapping_add(r.below(64) as u32);
            }
            _ => self.extension = u32::MAX - r.below(600) as u32,
        }
        self.room = before as usize + r.below(100);
    }

    /// P7.
    fn break_label(&mut self, r: &mut Random) {
        let units = 1 + r.below(250);
        self.label = units as u8;
        self.label_zeros = r.zeros(units);
    }

    /// The SecurityHeader's length, as declared.
    pub fn security_length(&self) -> usize {
        let parts = [self.identity.into(), self.key.into(), self.signature.into()];
        let parts = parts.into_iter().chain([self.certificate.into(), self.provider.into()]);
        SECURITY_FIXED + parts.map(padded).sum::<u64>() as usize
    }

    /// Where the properties header begins, as declared.
    fn properties_at(&self) -> usize {
        if self.security_first {
            self.security_length()
        } else {
            0
        }
    }

    /// Where the extension begins, as declared.
    pub fn before_extension(&self) -> usize {
        self.properties_at() + PROPERTIES_FIXED + 2 * usize::from(self.label)
    }

    /// The section's length, as declared.
    pub fn length(&self) -> usize {
        padded(self.before_extension() as u64 + u64::from(self.extension) + u64::from(self.body)) as usize
    }

    /// Lays the section out, with random bytes in its private parts and its padding.
    pub fn lay_out(&self, r: &mut Random) -> Vec<u8> {
        let mut out = Bytes { bytes: Vec::new(), room: self.room.min(LIMIT as usize + 64) };
        if self.security_first {
            self.lay_out_security(r, &mut out);
        }
        self.lay_out_properties(r, &mut out);
        out.bytes
    }

    fn lay_out_security(&self, r: &mut Random, out: &mut Bytes) {
        for number in [self.flags, self.identity, self.key, self.signature] {
            out.put(&number.to_le_bytes());
        }
        out.put(&self.certificate.to_le_bytes());
        out.put(&self.provider.to_le_bytes());
        let at = out.bytes.len();
        out.random(r, self.identity.into());
        if self.flags & 0xF == 1 && out.bytes.len() >= at + 2 {
            out.bytes[at] = self.sid_revision;
            out.bytes[at + 1] = self.sid_count;
        }
        out.pad(r);
        for size in [self.key.into(), self.signature.into(), self.certificate] {
            out.random(r, size);
            out.pad(r);
        }
        if self.provider >= 4 {
            out.put(&r.provider_type().to_le_bytes());
            out.units(r, (self.provider as usize - 4) / 2, &self.provider_zeros);
            out.random(r, self.provider % 2);
        } else {
            out.random(r, self.provider);
        }
        out.pad(r);
    }

    fn lay_out_properties(&self, r: &mut Random, out: &mut Bytes) {
        out.put(&[self.acknowledge, self.label]);
        out.put(&self.class.to_le_bytes());
        out.random(r, 24); // CorrelationID and BodyType
        out.random(r, 4); // ApplicationTag
        for number in [self.body, self.allocation, self.privacy, self.hash, self.cipher, self.extension] {
            out.put(&number.to_le_bytes());
        }
        out.units(r, self.label.into(), &self.label_zeros);
        out.random(r, self.extension);
        out.random(r, self.body);
        out.pad(r);
    }
}

/// A number of bytes at `length` or next to it.
fn near(r: &mut Random, length: usize) -> usize {
    (length + r.below(8)).saturating_sub(5)
}

fn padded(length: u64) -> u64 {
    length.div_ceil(4) * 4
}

/// Bytes that are added until there is no room.
struct Bytes {
    bytes: Vec<u8>,
    room: usize,
}

impl Bytes {
    fn put(&mut self, bytes: &[u8]) {
        let room = self.room - self.bytes.len();
        self.bytes.extend_from_slice(&bytes[..bytes.len().min(room)]);
    }
    fn random(&mut self, r: &mut Random, length: u32) {
        let at = self.bytes.len();
        let end = self.room.min(at + length as usize);
        self.bytes.resize(end, 0);
        r.fill(&mut self.bytes[at..]);
    }
    fn pad(&mut self, r: &mut Random) {
        self.random(r, (self.bytes.len().wrapping_neg() % 4) as u32);
    }
    /// Units that are zero only where `zeros` says.
    fn units(&mut self, r: &mut Random, count: usize, zeros: &[usize]) {
        for i in 0..count {
            if self.bytes.len() == self.room {
                return;
            }
            let unit = if zeros.contains(&(count - 1 - i)) { 0 } else { r.unit() };
            self.put(&unit.to_le_bytes());
        }
    }
}

/// One case: a valid section, or one with one to three steps or two neighbouring ones broken, then
/// perhaps cut, flipped or extended.
pub fn case(r: &mut Random) -> Case {
    let mut draft = Draft::valid(r);
    for step in r.steps(&STEPS, &[]) {
        draft.break_step(r, step);
    }
    // Long parts are laid out only now and then.
    if draft.length() > 2_000 && draft.room > 2_000 && !r.once_in(50) {
        draft.room = r.below(2_000);
    }
    if draft.length() > 150_000 && draft.room > 150_000 && !r.once_in(40) {
        draft.room = 150_000;
    }
    let mut bytes = draft.lay_out(r);
    damage(r, &mut bytes);
    let security_first = if r.once_in(60) { !draft.security_first } else { draft.security_first };
    Case { bytes, security_first }
}

/// Extends, cuts or flips now and then.
pub(super) fn damage(r: &mut Random, bytes: &mut Vec<u8>) {
    match r.below(12) {
        0 => {
            let more = 1 + r.below(70);
            bytes.extend_from_slice(&r.bytes(more));
        }
        1 => bytes.truncate(r.below(bytes.len() + 1)),
        2 | 3 if !bytes.is_empty() => {
            let at = if r.once_in(2) { r.below(bytes.len()) } else { r.below(bytes.len().min(90)) };
            bytes[at] ^= 1 << r.below(8);
        }
        4 if bytes.len() >= 4 => bytes.truncate(bytes.len() - 1 - r.below(4)),
        _ => {}
    }
}

/// A case whose section is long in fact: near 65,535 in a security part or near the limit in all.
pub fn long_case(r: &mut Random) -> Case {
    let mut draft = Draft::valid(r);
    draft.security_first = !r.once_in(3);
    if r.once_in(2) {
        draft.key = r.pick(&[65_533, 65_534, 65_535]);
    }
    if r.once_in(2) {
        draft.signature = r.pick(&[65_532, 65_534, 65_535]);
        draft.flags |= 0x40;
        draft.provider = 0;
    }
    if r.once_in(2) {
        draft.certificate = r.pick(&[65_534, 65_535, 65_536]);
    }
    match r.below(4) {
        0 => lengthen_body(r, &mut draft),
        1 => {
            let end = LIMIT - r.pick(&[0, 4, 52, 56, 60, 100]);
            lengthen_provider(r, &mut draft, end);
        }
        _ => {}
    }
    let mut bytes = draft.lay_out(r);
    if r.once_in(4) {
        bytes.truncate(bytes.len() - 1 - r.below(8));
    }
    Case { bytes, security_first: draft.security_first }
}

/// Takes extension and body to the limit or next to it.
fn lengthen_body(r: &mut Random, draft: &mut Draft) {
    let before = draft.before_extension() as u64;
    let room = (LIMIT - before) as i64 + r.pick(&[-3, -1, 0, 1, 4]);
    let body = r.below(room as usize + 1) as u32;
    draft.extension = room as u32 - body;
    draft.body = body;
    draft.allocation = body;
}

/// Takes the provider info so far that the SecurityHeader ends at `end`.
pub(super) fn lengthen_provider(r: &mut Random, draft: &mut Draft, end: u64) {
    draft.flags &= !0x40;
    draft.security_first = true;
    let others = draft.security_length() as u64 - padded(draft.provider.into());
    draft.provider = (end - others) as u32 - r.pick(&[0, 2]);
    if r.once_in(4) {
        draft.provider_zeros = vec![0, r.below(2_000_000)];
    }
}
