//! Sections, refusals and outputs that tests share.

use ugbariteyo::{text_bytes, Kind, Refusal};

/// A MessagePropertiesHeader with these numbers and no parts.
pub fn properties(label: u8, class: u16, extension: u32, body: u32, allocation: u32) -> Vec<u8> {
    let mut bytes = vec![0; 56];
    bytes[1] = label;
    bytes[2..4].copy_from_slice(&class.to_le_bytes());
    bytes[32..36].copy_from_slice(&body.to_le_bytes());
    bytes[36..40].copy_from_slice(&allocation.to_le_bytes());
    bytes[52..56].copy_from_slice(&extension.to_le_bytes());
    bytes
}

/// The fixed bytes of a SecurityHeader.
pub fn security(flags: u16, sizes: [u16; 3], certificate: u32, provider: u32) -> Vec<u8> {
    let mut bytes = flags.to_le_bytes().to_vec();
    for size in sizes {
        bytes.extend_from_slice(&size.to_le_bytes());
    }
    bytes.extend_from_slice(&certificate.to_le_bytes());
    bytes.extend_from_slice(&provider.to_le_bytes());
    bytes
}

pub fn refused(kind: Kind, place: usize) -> Refusal {
    Refusal { number: kind as u32, place }
}

/// An output that shows every byte written to it.
pub fn pattern(length: usize) -> Vec<u8> {
    (0..length).map(|i| (i * 7 + 0x55) as u8).collect()
}

/// What `write` leaves in a patterned output of `length` bytes: with an answer, only the bytes it counts may
/// change.
pub fn with_output(
    length: usize,
    write: impl FnOnce(&mut [u8]) -> Result<usize, Refusal>,
) -> Result<Vec<u8>, Refusal> {
    let mut out = pattern(length);
    let answer = write(&mut out);
    let written = answer.unwrap_or(0);
    assert_eq!(out[written..], pattern(length)[written..]);
    out.truncate(written);
    answer.map(|_| out)
}

/// A section with every part, every private bit set that may be, and bytes behind it.
pub fn full_section() -> Vec<u8> {
    let mut bytes = security(0xF0A1, [12, 3, 5], 2, 10);
    bytes.extend_from_slice(&[1, 1, 2, 3, 4, 5, 6, 7, 8, 9, 10, 11]);
    bytes.extend_from_slice(b"key?signe???ce??\x01\0\0\0");
    bytes.extend_from_slice(&text_bytes("xy"));
    bytes.extend_from_slice(b"??");
    let mut header = properties(2, 2, 3, 1, 9);
    header[0] = 0xFB;
    header[4..24].fill(0xCC);
    header[24] = 8;
    header[28..32].copy_from_slice(&0xDEAD_BEEFu32.to_le_bytes());
    header[40] = 5;
    header[44..46].copy_from_slice(&0x800Cu16.to_le_bytes());
    header[48..50].copy_from_slice(&0x6610u16.to_le_bytes());
    bytes.extend_from_slice(&header);
    bytes.extend_from_slice(b"a\0\0\0extB????behind");
    bytes
}

pub const FULL_LENGTH: usize = 56 + 56 + 8;
