//! Little-endian numbers, padding and 16-bit units in bytes.

/// `length` up to the next multiple of 4.
pub(crate) fn padded(length: u64) -> u64 {
    length.next_multiple_of(4)
}

/// The 16-bit number at `at`.
pub(crate) fn u16_at(bytes: &[u8], at: usize) -> u16 {
    u16::from_le_bytes([bytes[at], bytes[at + 1]])
}

/// The 32-bit number at `at`.
pub(crate) fn u32_at(bytes: &[u8], at: usize) -> u32 {
    u32::from_le_bytes([bytes[at], bytes[at + 1], bytes[at + 2], bytes[at + 3]])
}

/// Whether `units`, an even number of bytes, ends with a zero unit and has no other. The fold
/// looks at every unit, which is what lets it look at many at a time.
pub(crate) fn only_last_is_zero(units: &[u8]) -> bool {
    let Some((before, last)) = units.split_last_chunk::<2>() else {
        return false;
    };
    *last == [0, 0] && !before.chunks_exact(2).fold(false, |zero, unit| zero | (u16_at(unit, 0) == 0))
}

/// Where the first unit stands in `units` that breaks the rule of [`only_last_is_zero`]: "the first zero
/// unit before the last one; where there is none, the last unit". For units that break it.
pub(crate) fn breaking_unit(units: &[u8]) -> u64 {
    let last = units.len().saturating_sub(2);
    let zero = units[..last].chunks_exact(2).position(|unit| unit == [0, 0]);
    zero.map_or(last, |before| 2 * before) as u64
}
