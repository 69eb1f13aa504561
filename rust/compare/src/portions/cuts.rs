//! A section in three portions, cut at every two places.

use independent::generate::PortionsCase;

use super::{compare, described};
use crate::report::Tally;
use crate::side::{Call, Sides};
use crate::sweeps::whole_section;

/// What is changed in the section, and how many bytes of it come: nothing; an identity, a name, both, a last unit of the
/// name, a class and a label that are wrong; the first two of them in a header that is cut, and the label in a section
/// that is. Identity, name, class and label stand at 16, 64, 74 and 128; the header ends at 72 and the section at 148.
type Changed = (&'static [(usize, u8)], usize);
const CHANGED: [Changed; 10] = [
    (&[], 148),
    (&[(17, 2)], 148),
    (&[(66, 0)], 148),
    (&[(17, 2), (66, 0)], 148),
    (&[(69, 1)], 148),
    (&[(74, 3)], 148),
    (&[(130, 0)], 148),
    (&[(17, 2)], 71),
    (&[(66, 0)], 71),
    (&[(130, 0)], 147),
];

/// Compares both sides on every two cuts of the section, as it is and changed.
pub fn run(sides: Sides<'_>) -> Tally {
    let mut tally = Tally::new("portions cut anywhere");
    for (changes, length) in CHANGED {
        let mut bytes = whole_section();
        changes.iter().for_each(|&(at, byte)| bytes[at] = byte);
        bytes.truncate(length);
        let answer = sides.one.summarize(&bytes, true);
        for end in 0..=length {
            for start in 0..=end {
                let portions = [start, end - start, length - end].map(Call::Portion);
                let calls = portions.into_iter().chain([Call::Finish]).collect();
                let case = PortionsCase { bytes: bytes.clone(), security_first: true, calls };
                tally.add(&answer, compare(sides, &case), || described(&case));
            }
        }
    }
    tally
}
