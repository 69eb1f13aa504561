//! Which bits of a section are judged, and which are written: each as a mask over its bytes.

use independent::generate::Random;
use independent::{Part, PROPERTIES_FIXED, SECURITY_FIXED};

use crate::side::Summary;

/// The low four bits: what is left of a byte whose X bits are zero.
const WITHOUT_X: u8 = 0x0F;

/// The judged bits (01, "Judged bits, summary and support copy").
pub fn judged(summary: &Summary<'_>) -> Vec<u8> {
    let parts = &summary.parts;
    let at = properties_at(summary);
    let mut mask = Mask::new(summary);
    if let Some(security) = summary.security {
        mask.set(0, SECURITY_FIXED);
        if security.flags & 0xF == 1 {
            mask.set(parts.identity.start, 2);
        }
        mask.set_part(parts.provider);
    }
    mask.set(at, 4); // Flags, LabelLength, MessageClass
    mask.set(at + 24, 4); // BodyType
    mask.set(at + 32, 24); // the body's sizes to ExtensionSize
    mask.set_part(parts.label);
    mask.without_x(summary)
}

/// The bits that a writer carries over: all but X bits and padding.
pub fn carried(summary: &Summary<'_>) -> Vec<u8> {
    let parts = &summary.parts;
    let mut mask = Mask::new(summary);
    if summary.security.is_some() {
        mask.set(0, SECURITY_FIXED);
    }
    mask.set(properties_at(summary), PROPERTIES_FIXED);
    for part in [parts.identity, parts.key, parts.signature, parts.certificate, parts.provider] {
        mask.set_part(part);
    }
    for part in [parts.label, parts.extension, parts.body] {
        mask.set_part(part);
    }
    mask.without_x(summary)
}

/// The fields and parts of a section that have private bits, each with its padding apart; those without bytes are left
/// out. Of a byte of Flags only the X bits are private.
pub fn private(summary: &Summary<'_>) -> Vec<Part> {
    let parts = &summary.parts;
    let at = properties_at(summary);
    let end = parts.body.start + parts.body.length;
    let mut all = vec![(at, 1), (at + 4, 20), (at + 28, 4), (end, summary.length - end)];
    all.extend([parts.extension, parts.body].map(|part| (part.start, part.length)));
    if let Some(security) = summary.security {
        let sid = if security.flags & 0xF == 1 { 2 } else { 0 };
        all.extend([(1, 1), (parts.identity.start + sid, parts.identity.length - sid)]);
        all.extend([parts.key, parts.signature, parts.certificate].map(|part| (part.start, part.length)));
        let padded = [parts.key, parts.signature, parts.certificate, parts.provider];
        all.extend(padded.map(|part| (part.start + part.length, part.length.wrapping_neg() % 4)));
    }
    let with_bytes = all.into_iter().filter(|(_, length)| *length != 0);
    with_bytes.map(|(start, length)| Part { start, length }).collect()
}

/// Where the MessagePropertiesHeader begins.
fn properties_at(summary: &Summary<'_>) -> usize {
    summary.security.map_or(0, |security| security.length)
}

struct Mask(Vec<u8>);

impl Mask {
    fn new(summary: &Summary<'_>) -> Self {
        Self(vec![0; summary.length])
    }
    fn set(&mut self, start: usize, length: usize) {
        self.0[start..start + length].fill(0xFF);
    }
    fn set_part(&mut self, part: Part) {
        self.set(part.start, part.length);
    }
    /// The mask without the X bits of both Flags.
    fn without_x(mut self, summary: &Summary<'_>) -> Vec<u8> {
        if summary.security.is_some() {
            self.0[1] = WITHOUT_X;
        }
        self.0[properties_at(summary)] = WITHOUT_X;
        self.0
    }
}

/// The section with only the bits of `mask`.
pub fn only(mask: &[u8], input: &[u8]) -> Vec<u8> {
    mask.iter().zip(input).map(|(mask, byte)| mask & byte).collect()
}

/// "An input agrees with an accepted one in every judged bit when it reaches to the end of that one's section and holds
/// the same bits wherever that one's are judged."
pub fn agrees(input: &[u8], judged: &[u8], accepted: &[u8]) -> bool {
    let mut bytes = input.iter().zip(accepted).zip(judged);
    input.len() >= judged.len() && bytes.all(|((a, b), mask)| (a ^ b) & mask == 0)
}

/// The input with new bits wherever `judged` says nothing, behind the section too.
pub fn private_changed(input: &[u8], judged: &[u8], r: &mut Random) -> Vec<u8> {
    let mut changed = r.bytes(input.len());
    for ((new, old), mask) in changed.iter_mut().zip(input).zip(judged) {
        *new = *new & !mask | old & mask;
    }
    changed
}

/// The input with one judged bit flipped.
pub fn judged_flipped(input: &[u8], judged: &[u8], summary: &Summary<'_>, r: &mut Random) -> Vec<u8> {
    let mut flipped = input.to_vec();
    let (at, bit) = judged_bit(judged, summary, r);
    flipped[at] ^= bit;
    flipped
}

/// A judged bit, and its byte's place. The last judged bit lies in the fixed bytes or in the label.
pub fn judged_bit(judged: &[u8], summary: &Summary<'_>, r: &mut Random) -> (usize, u8) {
    let end = summary.parts.label.start + summary.parts.label.length;
    loop {
        let (at, bit) = (r.below(end), 1 << r.below(8));
        if judged[at] & bit != 0 {
            return (at, bit);
        }
    }
}

/// The input with any one bit flipped.
pub fn flipped(input: &[u8], r: &mut Random) -> Vec<u8> {
    let mut flipped = input.to_vec();
    if !flipped.is_empty() {
        let at = r.below(flipped.len().min(200));
        flipped[at] ^= 1 << r.below(8);
    }
    flipped
}
