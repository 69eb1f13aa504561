//! The listed numbers: classes, privacy levels, hash algorithms, and encryption algorithms by level;
//! those that are retired; and the BodyTypes of a single number.

/// Whether P3 passes `class`.
pub(crate) fn class_is_listed(class: u16) -> bool {
    matches!(
        class,
        0x0000..=0x0002
            | 0x4000
            | 0x8000..=0x8007
            | 0x8009..=0x800B
            | 0xC000..=0xC002
            | 0xC004
    )
}

/// Whether authentication can go on with `privacy`.
pub(crate) fn privacy_is_listed(privacy: u32) -> bool {
    matches!(privacy, 0 | 1 | 3 | 5)
}

/// Whether authentication of a signature can go on with `hash`.
pub(crate) fn hash_is_listed(hash: u32) -> bool {
    matches!(hash, 0x8001..=0x8004 | 0x800C | 0x800E)
}

/// Whether `privacy` is retired (C-21): "40-bit privacy", which is 1 in packets and in requests.
pub(crate) fn privacy_is_retired(privacy: u32) -> bool {
    privacy == 1
}

/// Whether a signature with `hash` is retired (C-21): MD2, MD4 and MD5.
pub(crate) fn hash_is_retired(hash: u32) -> bool {
    matches!(hash, 0x8001..=0x8003)
}

/// 003's encryption algorithms.
const RC2: u32 = 0x6602;
const RC4: u32 = 0x6801;
const AES_128: u32 = 0x660E;
const AES_192: u32 = 0x660F;
const AES_256: u32 = 0x6610;

/// Whether decryption can go on with `algorithm` at the level `privacy`: 003's table of the allowed
/// algorithms, row by row.
pub(crate) fn encryption_is_allowed(privacy: u32, algorithm: u32) -> bool {
    match privacy {
        1 => matches!(algorithm, RC2 | RC4),
        3 => matches!(algorithm, RC2 | RC4),
        5 => matches!(algorithm, AES_128 | AES_192 | AES_256),
        _ => false,
    }
}

/// The BodyTypes of a single number (C-16).
pub(crate) const I32: u32 = 3;
pub(crate) const U32: u32 = 19;
pub(crate) const F32: u32 = 4;
pub(crate) const F64: u32 = 5;

/// Whether 60 passes `body_type`.
pub(crate) fn body_type_is_listed(body_type: u32) -> bool {
    matches!(body_type, I32 | U32 | F32 | F64)
}

/// The MessageSize that 61 passes: "4, or .. 8 for type 5".
pub(crate) fn number_size(body_type: u32) -> u64 {
    match body_type {
        F64 => 8,
        _ => 4,
    }
}
