//! The record that tests share.

/// A record of this section.
pub fn record(first: u8, section: &[u8]) -> Vec<u8> {
    let length = (section.len() as u32).to_le_bytes();
    [&[0x57, 0x52, first, 0], &length[..], section].concat()
}
