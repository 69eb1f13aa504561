//! Queue format images to be read, and values to be written as images.

use super::Random;

/// For each queue type the suffix-and-flags bytes that pass with it.
pub const PAIRS: [&[u8]; 9] = [
    &[0x00, 0x81, 0x82],
    &[0x00, 0x81],
    &[0x00, 0x81],
    &[0x00, 0x81, 0x82, 0x83],
    &[0x81, 0x82, 0x83],
    &[0x00, 0x04, 0x84],
    &[0x00],
    &[0x00],
    &[0x00, 0x81, 0x82, 0x05],
];

/// What the image writer takes, and the bytes to lend for the output.
#[derive(Debug, Clone, Default)]
pub struct ImageValues {
    /// The queue type.
    pub kind: u8,
    /// Suffix and flags.
    pub suffix_and_flags: u8,
    /// The bytes of the GUID, OBJECTID or MULTICAST_ID.
    pub fixed: Vec<u8>,
    /// The bytes of the string.
    pub text: Vec<u8>,
    /// The bytes to lend for the output.
    pub room: usize,
}

/// Values to be written as an image: legal ones, or ones with a step broken or at its boundary.
pub fn image_values(r: &mut Random) -> ImageValues {
    let mut values = drawn(r);
    values.room = r.room(4 + values.fixed.len() + values.text.len(), &[]);
    values
}

/// An image to be read: of every type and suffix, of lengths at their boundaries, or damaged. The
/// reserved bytes hold anything.
pub fn image(r: &mut Random) -> Vec<u8> {
    let values = drawn(r);
    let mut bytes = vec![values.kind, values.suffix_and_flags, 0, 0];
    if r.once_in(2) {
        r.fill(&mut bytes[2..]);
    }
    bytes.extend_from_slice(&values.fixed);
    bytes.extend_from_slice(&values.text);
    match r.below(16) {
        0 => bytes.truncate(r.below(bytes.len() + 1)),
        1 => bytes.truncate(r.below(6)),
        2 => {
            let at = r.below(bytes.len());
            bytes[at] ^= 1 << r.below(8);
        }
        3 => {
            let more = 1 + r.below(4);
            bytes.extend_from_slice(&r.bytes(more));
        }
        _ => {}
    }
    bytes
}

fn drawn(r: &mut Random) -> ImageValues {
    let mut values = legal(r);
    for _ in 0..r.pick(&[0, 0, 0, 1, 1, 2]) {
        values.break_one(r);
    }
    values
}

fn legal(r: &mut Random) -> ImageValues {
    let kind = r.below(9);
    let fixed = [0, 16, 20, 0, 16, 16, 16, 8, 0][kind];
    let units = match kind {
        3 | 8 => 2 + string_units(r),
        6 => 1 + string_units(r),
        _ => 0,
    };
    ImageValues {
        kind: kind as u8,
        suffix_and_flags: r.pick(PAIRS[kind]),
        fixed: r.bytes(fixed),
        text: r.text(units, &[0]),
        room: 0,
    }
}

/// A number of units that, with one or two more, stays within a string.
fn string_units(r: &mut Random) -> usize {
    match r.below(8) {
        0 => r.pick(&[1_021, 1_022]),
        1 => r.below(1_022),
        2 => 0,
        _ => r.small(),
    }
}

impl ImageValues {
    /// Breaks, or takes to its boundary, what one step looks at.
    fn break_one(&mut self, r: &mut Random) {
        match r.below(7) {
            0 => self.kind = r.pick(&[9, 10, 16, 0x83, 255, 0, 3, 6, 8]),
            1 => {
                self.suffix_and_flags = match r.below(3) {
                    0 => r.word() as u8,
                    1 => self.suffix_and_flags ^ (1 << r.below(8)),
                    _ => r.pick(&[0x00, 0x81, 0x82, 0x83, 0x84, 0x04, 0x05, 0x80, 0x01, 0x85]),
                }
            }
            2 => {
                let length = match r.below(3) {
                    0 => self.fixed.len() + 1,
                    1 => self.fixed.len().saturating_sub(1),
                    _ => r.pick(&[0, 1, 7, 8, 9, 15, 16, 17, 19, 20, 21]),
                };
                self.fixed = r.bytes(length);
            }
            3 => {
                let units = r.pick(&[0, 1, 2, 1_022, 1_023, 1_024, 1_025, 1_026]);
                self.text = r.text(units, &[0]);
            }
            4 => {
                let units = 1 + r.below(30);
                let zeros = r.zeros(units);
                self.text = r.text(units, &zeros);
            }
            5 => self.text.push(r.pick(&[0, 1])),
            _ => {
                self.text.pop();
            }
        }
    }
}
