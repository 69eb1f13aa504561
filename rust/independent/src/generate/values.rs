//! Values and parts for the section writer.

use std::borrow::Cow;

use super::lists::CLASSES;
use super::random::{mark_identity, zero_bytes};
use super::Random;
use crate::order::names;
use crate::steps::WRITING;
use crate::{SectionValues, LIMIT, PROPERTIES_FIXED, SECURITY_FIXED};

/// [`SectionValues`] that own their parts, and the bytes to lend for the output.
#[derive(Debug, Clone, Default)]
pub struct OwnedValues {
    /// Whether a SecurityHeader stands first.
    pub security_first: bool,
    /// The SecurityHeader's Flags.
    pub security_flags: u16,
    /// The sender's identity.
    pub sender_id: Vec<u8>,
    /// The encryption key.
    pub encryption_key: Vec<u8>,
    /// The signature.
    pub signature: Vec<u8>,
    /// The sender's certificate.
    pub sender_cert: Vec<u8>,
    /// The provider info, type and name together.
    pub provider_info: Cow<'static, [u8]>,
    /// The properties Flags.
    pub flags: u8,
    /// MessageClass.
    pub message_class: u16,
    /// The correlation identifier.
    pub correlation_id: [u8; 20],
    /// The body's type.
    pub body_type: u32,
    /// The application's tag.
    pub application_tag: u32,
    /// AllocationBodySize.
    pub allocation_body_size: u64,
    /// The privacy level.
    pub privacy_level: u32,
    /// The hash algorithm.
    pub hash_algorithm: u32,
    /// The encryption algorithm.
    pub encryption_algorithm: u32,
    /// The label, as bytes.
    pub label: Vec<u8>,
    /// The extension data.
    pub extension: Cow<'static, [u8]>,
    /// The body.
    pub body: Vec<u8>,
    /// The bytes to lend for the output.
    pub room: usize,
}

/// The section writer's steps, and those that take long to break.
pub(super) const STEPS: [&str; 15] = names(&WRITING);
pub(super) const RARE: [&str; 3] = ["28", "S8", "P5"];

/// Values for the section writer: legal ones, or ones with one to three steps or two neighbouring
/// ones broken or at their boundary.
pub fn section_values(r: &mut Random) -> OwnedValues {
    let values = OwnedValues::legal(r);
    let steps = r.steps(&STEPS, &RARE);
    values.broken(r, &steps)
}

impl OwnedValues {
    /// The values, borrowed.
    pub fn as_values(&self) -> SectionValues<'_> {
        SectionValues {
            security_first: self.security_first,
            security_flags: self.security_flags,
            sender_id: &self.sender_id,
            encryption_key: &self.encryption_key,
            signature: &self.signature,
            sender_cert: &self.sender_cert,
            provider_info: &self.provider_info,
            flags: self.flags,
            message_class: self.message_class,
            correlation_id: self.correlation_id,
            body_type: self.body_type,
            application_tag: self.application_tag,
            allocation_body_size: self.allocation_body_size,
            privacy_level: self.privacy_level,
            hash_algorithm: self.hash_algorithm,
            encryption_algorithm: self.encryption_algorithm,
            label: &self.label,
            extension: &self.extension,
            body: &self.body,
        }
    }

    /// The length of the section that would be written.
    pub fn length(&self) -> usize {
        let parts = self.label.len() + self.extension.len() + self.body.len();
        self.properties_at() + (PROPERTIES_FIXED + parts).next_multiple_of(4)
    }

    fn properties_at(&self) -> usize {
        if self.security_first {
            self.security_length()
        } else {
            0
        }
    }

    fn security_length(&self) -> usize {
        let parts = [&self.sender_id, &self.encryption_key, &self.signature, &self.sender_cert];
        let sizes = parts.map(Vec::len).into_iter().chain([self.provider_info.len()]);
        SECURITY_FIXED + sizes.map(|size| size.next_multiple_of(4)).sum::<usize>()
    }

    /// The same with these steps broken or at their boundary, and with bytes to lend.
    pub(super) fn broken(mut self, r: &mut Random, steps: &[&str]) -> Self {
        for step in steps {
            self.break_step(r, step);
        }
        // A long output is lent only where it can be filled.
        let length = if self.length() > LIMIT as usize { PROPERTIES_FIXED } else { self.length() };
        self.room = r.room(length, steps);
        self
    }

    pub(super) fn legal(r: &mut Random) -> Self {
        let mut values = Self { security_first: r.below(5) < 3, ..Self::default() };
        values.draw_security(r);
        values.draw_properties(r);
        values
    }

    fn draw_security(&mut self, r: &mut Random) {
        let kind = r.below(3);
        self.draw_identity(r, kind);
        self.encryption_key = small_part(r);
        self.signature = small_part(r);
        self.sender_cert = small_part(r);
        let default_provider = r.once_in(2);
        let units = 1 + r.small();
        self.provider_info = match (default_provider, self.signature.is_empty()) {
            (true, _) => vec![],
            (false, true) if r.once_in(2) => vec![],
            (false, true) => provider_info(r, units, &[0]),
            (false, false) => provider_info(r, 1 + units, &[0]),
        }
        .into();
        if self.security_length() == SECURITY_FIXED {
            let length = 1 + r.below(6);
            self.encryption_key = r.bytes(length);
        }
        self.security_flags = kind as u16 | 0x80 | (r.word() as u16 & 0xF020);
        if default_provider {
            self.security_flags |= 0x40;
        }
    }

    fn draw_identity(&mut self, r: &mut Random, kind: usize) {
        let length = [0, 8 + 4 * r.below(16), 16][kind];
        self.sender_id = r.bytes(length);
        if kind == 1 {
            mark_identity(&mut self.sender_id);
        }
    }

    fn draw_properties(&mut self, r: &mut Random) {
        self.flags = r.word() as u8;
        self.message_class = r.pick(&CLASSES);
        r.fill(&mut self.correlation_id);
        self.body_type = r.word() as u32;
        self.application_tag = r.word() as u32;
        self.privacy_level = r.privacy();
        self.hash_algorithm = r.hash();
        self.encryption_algorithm = r.cipher();
        let units = r.label_units();
        self.label = r.text(units, &[0]);
        self.extension = small_part(r).into();
        self.body = small_part(r);
        self.allocation_body_size = match r.below(8) {
            0..=2 => (self.body.len() + r.below(20)) as u64,
            3 => LIMIT - r.below(2) as u64,
            _ => self.body.len() as u64,
        };
    }

    /// Breaks, or takes to its boundary, what one of the [`STEPS`] looks at.
    fn break_step(&mut self, r: &mut Random, step: &str) {
        if (step == "28" || step.starts_with('S')) && !r.once_in(16) {
            self.security_first = true;
        }
        match step {
            "28" => self.lengthen_part(r),
            "S2" => self.security_flags = self.security_flags & 0xFFF0 | r.below(16) as u16,
            "S3" => self.security_flags |= r.pick(&[0x10, 0x100, 0x200, 0x400, 0x800, 0xF00, 0xF10]),
            "S4" => self.break_presence(r),
            "S6" => self.break_identity_size(r),
            "S7" => self.break_provider_size(r),
            "S8" => self.lengthen_header(r),
            "S10" => self.break_identity(r),
            "S11" => self.break_provider(r),
            "P2" => {
                let length = r.pick(&[1, 2, 3, 496, 498, 499, 500, 501, 502, 510, 512, 514, 516, 600]);
                self.label = r.text(length / 2, &[0]);
                self.label.resize(length, 1);
            }
            "P3" => self.message_class = r.odd_class(),
            "P4" => self.break_allocation(r),
            "P5" => self.lengthen_section(r),
            "P7" => {
                let units = 1 + r.below(250);
                let zeros = r.zeros(units);
                self.label = r.text(units, &zeros);
            }
            _ => {} // 13 is about the output that is lent
        }
    }

    /// S4: DP clear, every part empty, both, or every part empty but one.
    fn break_presence(&mut self, r: &mut Random) {
        if r.once_in(3) {
            self.security_flags &= !0x80;
            if !r.once_in(3) {
                return;
            }
        }
        if r.once_in(2) {
            self.security_flags &= 0xFFF0;
        }
        let kept = r.below(10);
        if kept != 0 {
            self.provider_info = Cow::default();
        }
        let parts =
            [&mut self.sender_id, &mut self.encryption_key, &mut self.signature, &mut self.sender_cert];
        for (part, number) in parts.into_iter().zip(1..) {
            if kept != number {
                part.clear();
            }
        }
    }

    /// S6.
    fn break_identity_size(&mut self, r: &mut Random) {
        let length =
            r.pick(&[0, 1, 4, 7, 8, 9, 10, 12, 15, 16, 17, 20, 64, 67, 68, 69, 72, 76, 128, 264, 272, 1_032]);
        self.sender_id = r.bytes(length);
        mark_identity(&mut self.sender_id);
        if r.once_in(2) {
            self.security_flags = self.security_flags & 0xFFF0 | r.below(3) as u16;
        }
    }

    /// S7.
    fn break_provider_size(&mut self, r: &mut Random) {
        let length = r.below(14);
        let mut info = provider_info(r, (length.max(4) - 4) / 2, &[0]);
        info.resize(length, 1);
        self.provider_info = info.into();
        if r.once_in(2) {
            self.security_flags &= !0x40;
        }
        if r.once_in(2) {
            let length = r.below(2);
            self.signature = r.bytes(length);
        }
    }

    /// S10.
    fn break_identity(&mut self, r: &mut Random) {
        self.draw_identity(r, 1);
        self.security_flags = self.security_flags & 0xFFF0 | 1;
        match r.below(4) {
            0 => self.sender_id[0] = r.pick(&[0, 2, 3, 0x11, 0x81, 0xFF]),
            1 => self.sender_id[1] = self.sender_id[1].wrapping_add(r.pick(&[1, 255, 16, 128])),
            2 => self.sender_id.swap(0, 1),
            _ => {}
        }
    }

    /// S11.
    fn break_provider(&mut self, r: &mut Random) {
        self.security_flags &= !0x40;
        let units = r.name_units();
        let zeros = r.zeros(units);
        self.provider_info = provider_info(r, units, &zeros).into();
    }

    /// P4.
    fn break_allocation(&mut self, r: &mut Random) {
        let size = self.body.len() as u64;
        self.allocation_body_size = match r.below(6) {
            0 => size.wrapping_sub(1),
            1 => r.pick(&[0, LIMIT - 1, LIMIT, LIMIT + 1, LIMIT + 4, u64::MAX]),
            2 => (1 << 32) + size,
            3 => (1 << r.below(64)) + size,
            4 => size + 1,
            _ => size,
        };
    }

    /// 28 and its boundary, in a key, a signature or a certificate; or an identity whose size is
    /// right only in 16 bits.
    fn lengthen_part(&mut self, r: &mut Random) {
        if r.once_in(4) {
            let length = r.pick(&[65_536, 65_544, 65_552]);
            self.sender_id = r.bytes(length);
            return;
        }
        let length = r.pick(&[65_534, 65_535, 65_535, 65_536, 65_536, 65_537, 65_540]);
        let part = r.bytes(length);
        match r.below(3) {
            0 => self.encryption_key = part,
            1 => self.signature = part,
            _ => self.sender_cert = part,
        }
    }

    /// S8, by provider info that is zero all through; or its boundary.
    fn lengthen_header(&mut self, r: &mut Random) {
        if !r.once_in(12) {
            self.provider_info = zero_bytes(LIMIT as usize + r.below(4));
        } else {
            let over = 2 * r.below(7) as isize - r.pick(&[4, 60]);
            self.fill_header(over);
        }
    }

    /// Takes the header's length so far over the limit, by provider info that S11 passes.
    pub(super) fn fill_header(&mut self, over: isize) {
        self.security_first = true;
        self.security_flags &= !0x40;
        self.provider_info = Cow::default();
        let room = LIMIT as usize - self.security_length();
        let mut info = vec![1; room.saturating_add_signed(over)];
        let null = info.len() - 2;
        info[null..].fill(0);
        self.provider_info = info.into();
    }

    /// P5, by an extension that is zero all through; or its boundary, by an extension or a body.
    fn lengthen_section(&mut self, r: &mut Random) {
        self.extension = Cow::default();
        if !r.once_in(12) {
            self.extension = zero_bytes(LIMIT as usize);
            return;
        }
        let in_body = r.once_in(2);
        if in_body {
            self.body.clear();
        }
        let left = (LIMIT as usize).saturating_sub(self.length());
        let long = zero_bytes((left + r.below(13)).saturating_sub(6));
        if in_body {
            self.body = long.into_owned();
            self.allocation_body_size = self.allocation_body_size.max(self.body.len() as u64);
        } else {
            self.extension = long;
        }
    }
}

fn small_part(r: &mut Random) -> Vec<u8> {
    let length = r.small();
    r.bytes(length)
}

/// A type and a name of `units` units, zero only where `zeros` says.
fn provider_info(r: &mut Random, units: usize, zeros: &[usize]) -> Vec<u8> {
    let mut info = r.provider_type().to_le_bytes().to_vec();
    info.extend_from_slice(&r.text(units, zeros));
    info
}
