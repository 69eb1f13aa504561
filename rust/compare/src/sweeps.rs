//! Fixed sweeps: every security Flags, hash and encryption number of 16 bits; a section cut at every byte and flipped at
//! every bit.

use std::ops::RangeInclusive;

use independent::generate::Random;
use independent::{write_section, SectionValues};

use crate::report::Tally;
use crate::sections::add;
use crate::side::Sides;

/// Every number of 16 bits.
const ALL: RangeInclusive<u16> = 0..=u16::MAX;

/// Where HashAlgorithm and EncryptionAlgorithm stand in a MessagePropertiesHeader.
const HASH: usize = 44;
const ENCRYPTION: usize = 48;

/// Compares both sides on every sweep.
pub fn run(sides: Sides<'_>, r: &mut Random) -> Tally {
    let mut tally = Tally::new("sweeps");
    let whole = whole_section();
    let at = whole.len() - properties_length();
    for (mut input, offset) in
        [(key_only(), 0), (whole.clone(), 0), (whole.clone(), at + HASH), (whole.clone(), at + ENCRYPTION)]
    {
        for number in ALL {
            input[offset..offset + 2].copy_from_slice(&number.to_le_bytes());
            add(&mut tally, sides, &input, true, r);
        }
    }
    cut_and_flip(&mut tally, sides, &whole, r);
    tally
}

/// Cuts the section at every byte and flips it at every bit.
fn cut_and_flip(tally: &mut Tally, sides: Sides<'_>, section: &[u8], r: &mut Random) {
    for length in 0..=section.len() {
        add(tally, sides, &section[..length], true, r);
    }
    let mut flipped = section.to_vec();
    for at in 0..section.len() {
        for bit in 0..8 {
            flipped[at] ^= 1 << bit;
            add(tally, sides, &flipped, true, r);
            flipped[at] ^= 1 << bit;
        }
    }
}

/// The label of the whole section.
const LABEL: &[u8] = b"w\0i\0r\0e\0\0\0";

/// The length of the whole section's MessagePropertiesHeader.
fn properties_length() -> usize {
    (56 + LABEL.len() + 5 + 2_usize).next_multiple_of(4)
}

/// A section with every part, signed and encrypted.
pub(crate) fn whole_section() -> Vec<u8> {
    written(&SectionValues {
        security_first: true,
        security_flags: 0x00A1,
        sender_id: &[1, 1, 0, 0, 0, 0, 0, 5, 18, 0, 0, 0],
        encryption_key: b"a key",
        signature: b"a signature",
        sender_cert: b"certificate",
        provider_info: b"\x01\0\0\0p\0q\0\0\0",
        flags: 0x05,
        message_class: 0x4000,
        correlation_id: *b"correlation of 20 by",
        body_type: 8,
        application_tag: 0x1234_5678,
        allocation_body_size: 7,
        // retired by its hash alone
        privacy_level: 3,
        hash_algorithm: 0x8003,
        encryption_algorithm: 0x6801,
        label: LABEL,
        extension: b"first",
        body: b"se",
    })
}

/// A section with a key and nothing else.
fn key_only() -> Vec<u8> {
    let values = SectionValues { security_first: true, security_flags: 0x0080, ..SectionValues::default() };
    written(&SectionValues { encryption_key: b"key", ..values })
}

fn written(values: &SectionValues<'_>) -> Vec<u8> {
    let mut out = vec![0; 512];
    let length = write_section(values, &mut out).expect("the values are legal");
    out.truncate(length);
    out
}
