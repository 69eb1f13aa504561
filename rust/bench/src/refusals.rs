//! Sections that are refused: one for each cause, beside the section without the fault.

use ugbariteyo::{read, First};

use crate::samples::Sample;

/// A section that one step refuses.
pub struct Refused {
    /// The step, the cause and the sample.
    pub what: String,
    /// How it is read.
    pub first: First,
    /// The section.
    pub section: Vec<u8>,
    /// The section without the fault.
    pub accepted: Vec<u8>,
}

/// The step and what is wrong; the refusal's number; the fault, put into a section whose properties stand there.
type Cause = (&'static str, u32, fn(&mut Vec<u8>, usize));

const SECURITY: [Cause; 16] = [
    ("S1, 15 bytes", 1, |s, _| s.truncate(15)),
    ("S2, ST 3", 2, |s, _| s[0] |= 0x03),
    ("S3, AU", 3, |s, _| s[0] |= 0x10),
    ("S3, AS", 3, |s, _| s[1] |= 0x01),
    ("S4, every size zero", 4, |s, _| s[2..16].fill(0)),
    ("S4, DP clear", 4, |s, _| s[0] &= 0x7F),
    ("S5, certificate above 65,535 bytes", 5, |s, _| s[10] = 1),
    ("S6, identity of 29 bytes", 6, |s, _| s[2] += 1),
    ("S7, provider info of an odd size", 7, |s, _| s[12] += 1),
    ("S7, provider info beside DE", 7, |s, _| s[0] |= 0x40),
    ("S8, header above the limit", 8, |s, _| s[15] = 1),
    ("S9, header cut", 1, |s, p| s.truncate(p - 1)),
    ("S10, identity's first byte", 6, |s, _| s[16] = 2),
    ("S10, identity's second byte", 6, |s, _| s[17] = 4),
    ("S11, name's first unit zero", 7, |s, p| s[p - 88] = 0),
    ("S11, name's last unit not zero", 7, |s, p| s[p - 4] = 1),
];

const PROPERTIES: [Cause; 10] = [
    ("P1, 55 bytes left", 1, |s, p| s.truncate(p + 55)),
    ("P2, label of 251 units", 9, |s, p| s[p + 1] = 251),
    ("P3, class 0x8008", 10, |s, p| s[p + 2..p + 4].copy_from_slice(&[0x08, 0x80])),
    ("P4, allocation below the body", 11, |s, p| s[p + 36] -= 1),
    ("P4, allocation above the limit", 11, |s, p| s[p + 39] = 1),
    ("P5, section above the limit", 8, |s, p| s[p + 55] = 1),
    ("P6, section cut", 1, |s, _| s.truncate(s.len() - 1)),
    ("P7, label's first unit zero", 12, |s, p| s[p + 56] = 0),
    ("P7, label's middle unit zero", 12, |s, p| s[p + 56 + 250] = 0),
    ("P7, label's last unit not zero", 12, |s, p| s[p + 56 + 498] = 1),
];

impl Refused {
    /// One for each cause; those of the properties behind a SecurityHeader, and without one.
    pub fn all() -> Vec<Self> {
        let secured = Sample::secured("full security");
        let labelled = Sample::labelled("no security", 250);
        let causes = [(&secured, &SECURITY[..]), (&secured, &PROPERTIES), (&labelled, &PROPERTIES)];
        causes
            .iter()
            .flat_map(|(sample, causes)| causes.iter().map(|cause| Self::new(sample, cause)))
            .collect()
    }

    fn new(sample: &Sample, &(what, number, fault): &Cause) -> Self {
        let (accepted, first) = (sample.section(), sample.first());
        let security = read(&accepted, first).expect("the sample is legal").summary().security;
        let mut section = accepted.clone();
        fault(&mut section, security.map_or(0, |security| security.length));
        let refusal = read(&section, first).expect_err("a fault is refused");
        assert_eq!(refusal.number, number, "{what}");
        Self { what: format!("{what}; {}", sample.name), first, section, accepted }
    }
}
