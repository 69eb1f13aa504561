//! The privacy levels and encryption algorithms of 003 and the numbers next to them, pair by pair, with EB set, with EB
//! clear and without a SecurityHeader: both sides, and 003's table.

use std::collections::BTreeSet;

use independent::generate::Random;

use crate::report::{agree, Check, Tally};
use crate::sections;
use crate::side::{Answer, Sides, Summary};

/// 003's table of PrivacyLevel and allowed encryption algorithms: where EB is set, all other pairs fail (C-14).
const ALLOWED: [(u32, u32); 7] =
    [(1, 0x6602), (1, 0x6801), (3, 0x6602), (3, 0x6801), (5, 0x660E), (5, 0x660F), (5, 0x6610)];
/// The levels that do not fail authentication (01).
const LEVELS: [u32; 4] = [0, 1, 3, 5];
/// 003's algorithms.
const ALGORITHMS: [u32; 5] = [0x6602, 0x660E, 0x660F, 0x6610, 0x6801];
/// A hash algorithm that 01 lists, and one that it does not.
const LISTED: u32 = 0x800C;
const UNLISTED: u32 = 0x800D;

/// The bytes before the MessagePropertiesHeader, whether EB is set in them, and whether they hold a signature: none; a
/// SecurityHeader with DP and a key; one with DP, DE and a signature.
pub(crate) const HEADS: [(&[u8], bool, bool); 5] = [
    (b"", false, false),
    (b"\x80\0\0\0\x04\0\0\0\0\0\0\0\0\0\0\0akey", false, false),
    (b"\xA0\0\0\0\x04\0\0\0\0\0\0\0\0\0\0\0akey", true, false),
    (b"\xC0\0\0\0\0\0\x04\0\0\0\0\0\0\0\0\0sign", false, true),
    (b"\xE0\0\0\0\0\0\x04\0\0\0\0\0\0\0\0\0sign", true, true),
];

/// What the library finds fit to decrypt, and how often: each allowed pair, unsigned and signed with each hash.
const FIT: &str = "EB set and fit to decrypt";
const FIT_LEAST: u64 = 3 * ALLOWED.len() as u64;

/// Compares both sides at every pair.
pub fn run(sides: Sides<'_>, r: &mut Random) -> Tally {
    let mut tally = Tally::new("pairs");
    tally.is_to_meet(FIT, FIT_LEAST);
    let (levels, algorithms) = (near(&LEVELS), near(&ALGORITHMS));
    let pairs = levels.iter().flat_map(|&level| algorithms.iter().map(move |&algorithm| (level, algorithm)));
    for pair in pairs {
        for (head, eb, signed) in HEADS {
            // without a signature the hash is not looked at
            for &hash in if signed { &[LISTED, UNLISTED][..] } else { &[UNLISTED] } {
                let (section, security_first) = (section(head, pair, hash), !head.is_empty());
                let answer = sides.one.summarize(&section, security_first);
                tally.meet_if(eb && answer.is_ok_and(|summary| !summary.decryption_fails), FIT);
                let authentication = !LEVELS.contains(&pair.0) || signed && hash == UNLISTED;
                let decryption = eb && !ALLOWED.contains(&pair);
                let check = verdicts(&answer, section.len(), authentication, decryption)
                    .and_then(|()| sections::compare(sides, &section, security_first, r));
                tally.add(&answer, check, || sections::described(&section, security_first));
            }
        }
    }
    tally
}

/// The numbers and 0, those one bit and one away from them, and the same in the high half.
pub(crate) fn near(numbers: &[u32]) -> BTreeSet<u32> {
    let neighbours = |&n: &u32| {
        let one_bit = (0..32).map(move |bit| n ^ 1 << bit);
        one_bit.chain([n, 0, n.wrapping_add(1), n.wrapping_sub(1), n << 16])
    };
    numbers.iter().flat_map(neighbours).collect()
}

/// A section without parts behind `head`. The X bit in its Flags stands where a SecurityHeader would have EB.
pub(crate) fn section(head: &[u8], (level, algorithm): (u32, u32), hash: u32) -> Vec<u8> {
    let numbers = [level, hash, algorithm].map(u32::to_le_bytes);
    [head, &[0x20], &[0; 39], numbers.as_flattened(), &[0; 4]].concat()
}

/// Whatever the pair and EB are, the section is accepted; the verdicts are these.
fn verdicts(answer: &Answer<Summary<'_>>, length: usize, authentication: bool, decryption: bool) -> Check {
    agree("the section's length", &answer.map(|summary| summary.length), &Ok(length))?;
    let fails = answer.map(|summary| summary.authentication_fails);
    agree("authentication fails", &fails, &Ok(authentication))?;
    agree("decryption fails", &answer.map(|summary| summary.decryption_fails), &Ok(decryption))
}
