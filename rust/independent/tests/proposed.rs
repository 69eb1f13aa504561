//! C-24: copies that someone proposes, and the bits that a refusal does not depend on.

use independent::generate::{case, place_case, Random};
use independent::{copy_by_sizes, is_support_copy, may_differ, read, support_copy, LIMIT};

/// 01's example 2 with every private bit set, and its copy. Label, extension, body and padding have 6, 5, 2
/// and 3 bytes.
fn plain() -> (Vec<u8>, Vec<u8>) {
    let mut section = vec![0xFF; 72];
    section[..4].copy_from_slice(&[0xF5, 3, 0, 0]);
    section[24..28].copy_from_slice(&8u32.to_le_bytes()); // BodyType
    section[32..36].copy_from_slice(&2u32.to_le_bytes());
    section[36..40].copy_from_slice(&2u32.to_le_bytes());
    section[52..56].copy_from_slice(&5u32.to_le_bytes());
    section[56..62].copy_from_slice(b"a\0b\0\0\0");
    let mut copy = section.clone();
    copy[0] = 0x05;
    copy[4..24].fill(0);
    copy[28..32].fill(0);
    copy[62..].fill(0);
    (section, copy)
}

/// A SecurityHeader of each part with every private bit set, and its copy: an identity of kind 1 with one
/// sub-authority at 16, a key of 1 byte at 28, a signature of 5 at 32, a certificate of 2 at 40, and provider
/// info of 10 at 44, which takes 12.
fn security() -> (Vec<u8>, Vec<u8>) {
    let mut header = vec![0xFF; 56];
    header[..16].copy_from_slice(&[0x81, 0xF0, 12, 0, 1, 0, 5, 0, 2, 0, 0, 0, 10, 0, 0, 0]);
    header[16..18].copy_from_slice(&[1, 1]);
    header[44..54].copy_from_slice(b"\x01\0\0\0p\0q\0\0\0");
    let mut copy = header.clone();
    copy[1] = 0;
    copy[18..44].fill(0);
    copy[54..].fill(0);
    (header, copy)
}

fn both() -> (Vec<u8>, Vec<u8>) {
    let ((header, header_copy), (section, copy)) = (security(), plain());
    ([header, section].concat(), [header_copy, copy].concat())
}

#[test]
fn the_copy_that_01_fixes() {
    for ((section, copy), security_first) in [(plain(), false), (both(), true)] {
        let mut made = vec![0x55; section.len()];
        assert_eq!(support_copy(&section, security_first, &mut made), Ok(copy.len()));
        assert_eq!(made, copy);
        assert!(is_support_copy(&section, security_first, &copy));
        assert!(is_support_copy(&copy, security_first, &copy), "a copy is its own");
        assert!(!is_support_copy(&section, security_first, &section));
        assert!(!is_support_copy(&copy, security_first, &section));
    }
}

#[test]
fn every_bit_counts() {
    for ((section, mut copy), security_first) in [(plain(), false), (both(), true)] {
        for bit in 0..8 * copy.len() {
            copy[bit / 8] ^= 1 << (bit % 8);
            assert!(!is_support_copy(&section, security_first, &copy), "bit {bit}");
            copy[bit / 8] ^= 1 << (bit % 8);
        }
    }
}

#[test]
fn the_length_is_the_sections() {
    let (section, copy) = both();
    for cut in 0..copy.len() {
        assert!(!is_support_copy(&section, true, &copy[..cut]), "{cut}");
    }
    for more in [&[0][..], &[0; 4], &[7], &section] {
        assert!(!is_support_copy(&section, true, &[&copy, more].concat()));
        // Bytes behind the section do not belong to it.
        let followed = [&section, more].concat();
        assert!(is_support_copy(&followed, true, &copy));
        assert!(!is_support_copy(&followed, true, &[&copy, more].concat()));
    }
}

#[test]
fn identities_of_other_kinds() {
    let (mut section, mut copy) = both();
    section[0] = 0x82;
    section[2] = 16;
    section.splice(28..28, [1, 1, 0, 0]);
    copy.splice(28..28, [0; 4]);
    copy[..3].copy_from_slice(&[0x82, 0, 16]);
    assert!(!is_support_copy(&section, true, &copy), "for ST 2 the first two bytes are private");
    copy[16..18].fill(0);
    assert!(is_support_copy(&section, true, &copy));
}

#[test]
fn no_copy_of_a_refused_section() {
    let (mut section, mut copy) = plain();
    section[61] = 1; // the label's last unit
    copy[61] = 1;
    assert!(read(&section, false).is_err());
    assert_eq!(copy_by_sizes(&section, false).as_ref(), Some(&copy));
    for proposal in [&copy[..], &section, &[0; 72], &[], &plain().1] {
        assert!(!is_support_copy(&section, false, proposal));
    }
    assert!(!is_support_copy(&section[..71], false, &copy[..71]));
    assert_eq!(copy_by_sizes(&section[..71], false), None);
    assert!(!is_support_copy(&[], false, &[]));
    assert!(!is_support_copy(&[], true, &[]));
}

#[test]
fn as_long_as_a_section_may_be() {
    let mut section = vec![0; LIMIT as usize];
    let size = (LIMIT as u32 - 56).to_le_bytes();
    section[32..36].copy_from_slice(&size);
    section[36..40].copy_from_slice(&size);
    let mut copy = section.clone();
    section[56..].fill(0xAA);
    assert!(is_support_copy(&section, false, &copy));
    copy[LIMIT as usize - 1] = 1;
    assert!(!is_support_copy(&section, false, &copy));
}

/// The places of a mask, each with its bits.
fn places(mask: &[u8]) -> Vec<(usize, u8)> {
    mask.iter().copied().enumerate().filter(|(_, bits)| *bits != 0).collect()
}

/// X bits, CorrelationID and ApplicationTag of a MessagePropertiesHeader at `at`.
fn free_at(at: usize) -> Vec<(usize, u8)> {
    let whole = (4..24).chain(28..32).map(|offset| (at + offset, 0xFF));
    [(at, 0xF0)].into_iter().chain(whole).collect()
}

#[test]
fn bits_that_may_differ() {
    let (section, _) = plain();
    assert_eq!(places(&may_differ(&section, false)), free_at(0));
    assert_eq!(places(&may_differ(&section[..56], false)), free_at(0));
    assert_eq!(places(&may_differ(&section[..55], false)), [], "the fixed bytes are not there");

    let (section, _) = both();
    let parts = (18..44).chain(54..56).map(|at| (at, 0xFF));
    let header: Vec<_> = [(1, 0xF0)].into_iter().chain(parts).collect();
    assert_eq!(places(&may_differ(&section, true)), [&header[..], &free_at(56)].concat());
    assert_eq!(places(&may_differ(&section[..56 + 55], true)), header);
    assert_eq!(places(&may_differ(&section[..55], true)), [(1, 0xF0)], "S9 refuses the header");
    assert_eq!(places(&may_differ(&section[..16], true)), [(1, 0xF0)]);
    assert_eq!(places(&may_differ(&section[..15], true)), []);
}

/// The sizes of a refused SecurityHeader give the place of the next one, whose bits may differ too.
#[test]
fn bits_behind_a_refused_header() {
    for (at, bits) in [(0, 0x03), (0, 0x10), (1, 0x01), (0, 0x80), (17, 0x02), (48, b'p')] {
        let (mut section, _) = both();
        section[at] ^= bits;
        assert!(read(&section, true).is_err_and(|refusal| refusal.place < 56));
        let wanted = [&[(1, 0xF0)][..], &free_at(56)].concat();
        assert_eq!(places(&may_differ(&section, true)), wanted, "byte {at}");
    }
    let (mut section, _) = both();
    section[12..16].fill(0xFF); // ProviderInfoSize: the next header lies behind the input
    assert_eq!(places(&may_differ(&section, true)), [(1, 0xF0)]);
}

/// The other input has the same bits that may differ, and the same refusal; or it is accepted too.
#[test]
fn the_answer_does_not_depend_on_them() {
    let mut r = Random::new(24);
    for number in 0..20_000 {
        let case = if number % 2 == 0 { case(&mut r) } else { place_case(&mut r) };
        let (input, first) = (&case.bytes[..], case.security_first);
        let mask = may_differ(input, first);
        let mut other = r.bytes(input.len());
        for ((new, old), bits) in other.iter_mut().zip(input).zip(&mask) {
            *new = *new & bits | old & !bits;
        }
        assert_eq!(may_differ(&other, first), mask);
        assert_eq!(read(&other, first).err(), read(input, first).err());
    }
}
