//! The random numbers and the small draws that all generators share.

use std::borrow::Cow;
use std::sync::OnceLock;

use super::lists::{CIPHERS, CLASSES, HASHES, NO_CLASSES, PRIVACY};
use crate::LIMIT;

/// Counts of units next to which a program that looks at many at a time may go wrong: 3 more are next
/// to them too.
const BLOCKS: [usize; 5] = [6, 14, 30, 62, 126];

/// A small random number generator (splitmix64).
#[derive(Debug, Clone)]
pub struct Random(u64);

impl Random {
    /// The generator of this seed.
    pub fn new(seed: u64) -> Self {
        Self(seed)
    }
    /// The next 64 bits.
    pub fn word(&mut self) -> u64 {
        self.0 = self.0.wrapping_add(0x9E37_79B9_7F4A_7C15);
        let mut z = self.0;
        z = (z ^ (z >> 30)).wrapping_mul(0xBF58_476D_1CE4_E5B9);
        z = (z ^ (z >> 27)).wrapping_mul(0x94D0_49BB_1331_11EB);
        z ^ (z >> 31)
    }
    /// A number below `n`, which is not 0.
    pub fn below(&mut self, n: usize) -> usize {
        (self.word() % n as u64) as usize
    }
    /// True once in `n` times.
    pub fn once_in(&mut self, n: usize) -> bool {
        self.below(n) == 0
    }
    /// One of `from`.
    pub fn pick<T: Copy>(&mut self, from: &[T]) -> T {
        from[self.below(from.len())]
    }
    /// Fills `bytes`.
    pub fn fill(&mut self, bytes: &mut [u8]) {
        for chunk in bytes.chunks_mut(8) {
            let word = self.word().to_le_bytes();
            chunk.copy_from_slice(&word[..chunk.len()]);
        }
    }
    /// As many new bytes.
    pub fn bytes(&mut self, length: usize) -> Vec<u8> {
        let mut bytes = vec![0; length];
        self.fill(&mut bytes);
        bytes
    }

    /// A small size: often 0, often one of the first few.
    pub(super) fn small(&mut self) -> usize {
        match self.below(8) {
            0..=2 => 0,
            3 => self.below(5),
            4 => self.below(40),
            5 => self.pick(&[1, 2, 3, 4, 5, 7, 8, 16, 64, 128]),
            _ => self.below(12),
        }
    }
    /// The units of a label: often few, often next to the most there may be.
    pub(super) fn label_units(&mut self) -> usize {
        match self.below(8) {
            0 | 1 => 0,
            2 => 1,
            3 => self.below(251),
            4 => self.pick(&[2, 3, 127, 128, 248, 249, 250]),
            _ => self.below(12),
        }
    }
    /// A unit that is not zero; now and then with one zero byte in it.
    pub(super) fn unit(&mut self) -> u16 {
        match self.below(8) {
            0 => 1 + self.below(255) as u16,
            1 => (1 + self.below(255) as u16) << 8,
            _ => 1 + self.below(65_535) as u16,
        }
    }
    /// A provider's type: often one that has a zero unit, as a name must not.
    pub(super) fn provider_type(&mut self) -> u32 {
        match self.below(4) {
            0 => self.pick(&[0, 1, 24, 0x0001_0000]),
            1 => self.unit().into(),
            _ => self.word() as u32,
        }
    }
    /// The units of a provider name: few, or next to a block of 16 units; seldom some thousands.
    pub(super) fn name_units(&mut self) -> usize {
        match self.below(16) {
            0..=3 => self.pick(&BLOCKS) + self.below(4),
            4 if self.once_in(4) => 1_000 + self.below(4_000),
            _ => 1 + self.below(20),
        }
    }
    /// Which of `units` units are zero, counted from the end: right, or wrong in one of several ways.
    pub(super) fn zeros(&mut self, units: usize) -> Vec<usize> {
        match self.below(10) {
            0 => vec![],
            1 => vec![0, units - 1],
            2 => vec![0, self.below(units)],
            3 => vec![self.below(units)],
            4 => vec![0, 1.min(units - 1)],
            5 => self.several(units),
            6 => [vec![0], self.several(units)].concat(),
            7 => vec![0, units - 1 - (self.pick(&BLOCKS) + self.below(4)).min(units - 1)],
            8 => (0..units.min(40)).collect(),
            _ => vec![0],
        }
    }
    /// A few of `units` units.
    fn several(&mut self, units: usize) -> Vec<usize> {
        (0..2 + self.below(4)).map(|_| self.below(units)).collect()
    }
    /// Units as bytes, zero only where `zeros` says, counted from the end.
    pub(super) fn text(&mut self, units: usize, zeros: &[usize]) -> Vec<u8> {
        let mut bytes = Vec::with_capacity(2 * units);
        for i in 0..units {
            let unit = self.unit();
            let unit = if zeros.contains(&(units - 1 - i)) { 0 } else { unit };
            bytes.extend_from_slice(&unit.to_le_bytes());
        }
        bytes
    }
    /// A class that is not listed, or next to one that is.
    pub(super) fn odd_class(&mut self) -> u16 {
        match self.below(3) {
            0 => self.word() as u16,
            1 => self.pick(&CLASSES) ^ (1 << self.below(16)),
            _ => self.pick(&NO_CLASSES),
        }
    }
    /// A packet's privacy, listed or not.
    pub(super) fn privacy(&mut self) -> u32 {
        let count = self.pick(&[4, 6, PRIVACY.len()]);
        self.pick(&PRIVACY[..count])
    }
    /// A hash algorithm, listed or not.
    pub(super) fn hash(&mut self) -> u32 {
        self.hash_from(0)
    }
    /// A hash algorithm, listed or not, that a signed request may have.
    pub(super) fn hash_to_sign(&mut self) -> u32 {
        self.hash_from(3)
    }
    fn hash_from(&mut self, first: usize) -> u32 {
        let end = self.pick(&[6, HASHES.len()]);
        self.pick(&HASHES[first..end])
    }
    /// An encryption algorithm, listed or not.
    pub(super) fn cipher(&mut self) -> u32 {
        let count = self.pick(&[5, CIPHERS.len()]);
        self.pick(&CIPHERS[..count])
    }
    /// A time: often 0 or one of the others that a default may be mistaken for.
    pub(super) fn time(&mut self) -> u32 {
        match self.below(4) {
            0 => 0,
            1 => self.word() as u32,
            _ => self.pick(&[0, 1, 0x10000, 0x80000000, 0xFFFFFFFE, 0xFFFFFFFF]),
        }
    }
    /// The steps that a case breaks: none, one to three of `list`, or two that follow each other in
    /// it. The `rare` ones, which take long, are seldom broken but beside a neighbour.
    pub(super) fn steps<'l>(&mut self, list: &[&'l str], rare: &[&str]) -> Vec<&'l str> {
        let count = match self.below(24) {
            0..=9 => 0,
            10..=17 => 1,
            18 | 19 => 2,
            20 | 21 => 3,
            _ => {
                let first = self.below(list.len() - 1);
                return list[first..first + 2].to_vec();
            }
        };
        let mut steps: Vec<_> = (0..count).map(|_| self.pick(list)).collect();
        steps.retain(|step| !rare.contains(step) || self.once_in(20));
        steps
    }
    /// A number of bytes to lend for an output of `length`: most often enough, but short where 13 is
    /// among the steps that are broken.
    pub(super) fn room(&mut self, length: usize, broken: &[&str]) -> usize {
        match self.below(16) {
            _ if broken.contains(&"13") => self.below(length.max(1)),
            0 => length.saturating_sub(1 + self.below(4)),
            1 => self.below(length + 1),
            2..=8 => length,
            _ => length + self.below(9),
        }
    }
}

/// So many zero bytes, few more than the limit at most. All share one buffer, so that a part which
/// is that long takes no time.
pub(super) fn zero_bytes(length: usize) -> Cow<'static, [u8]> {
    static ZERO: OnceLock<Vec<u8>> = OnceLock::new();
    Cow::Borrowed(&ZERO.get_or_init(|| vec![0; LIMIT as usize + 64])[..length])
}

/// Sets the first two bytes of an identity to what S10 wants of kind 1.
pub(super) fn mark_identity(identity: &mut [u8]) {
    if let [first, second, rest @ ..] = identity {
        *first = 1;
        *second = (rest.len().saturating_sub(6) / 4) as u8;
    }
}
