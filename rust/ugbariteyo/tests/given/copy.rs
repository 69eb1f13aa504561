//! The support copy of the full section, made by hand.

use super::given_section::{full_section, FULL_LENGTH};

/// The section with every private bit zero, and nothing behind it.
pub fn full_copy() -> Vec<u8> {
    let mut copy = full_section();
    copy.truncate(FULL_LENGTH);
    copy[1] = 0;
    copy[18..44].fill(0);
    copy[54..56].fill(0);
    copy[56] = 0x0B;
    copy[60..80].fill(0);
    copy[84..88].fill(0);
    copy[116..].fill(0);
    copy
}
