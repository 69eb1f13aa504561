//! The support copy: the section with every private bit zero; and whether what another made is one.

use crate::ffi;
use crate::refusal::Refusal;
use crate::section::{read, First};

/// Writes the support copy of the section at the start of `input` to the front of `out`, and gives its
/// length. Bytes of `out` behind the copy stay as they were.
///
/// # Errors
///
/// As of [`read`], then 13 where `out` is shorter than the section. Nothing is written then.
#[inline]
pub fn support_copy(input: &[u8], first: First, out: &mut [u8]) -> Result<usize, Refusal> {
    ffi::written(ffi::support_copy(input, first, out))
}

/// The support copy in a vector of its own.
///
/// # Errors
///
/// As of [`read`].
#[inline]
pub fn support_copy_vec(input: &[u8], first: First) -> Result<Vec<u8>, Refusal> {
    let mut copy = vec![0; read(input, first)?.section_length()];
    support_copy(input, first, &mut copy)?;
    Ok(copy)
}

/// Whether `copy`, whoever made it, is the support copy of the section at the start of `input`: byte for byte and in
/// its exact length. `false` where the section is refused; [`read`] says with what.
///
/// The answer depends neither on the section's private bits nor on the bytes behind it. Nothing is written or
/// allocated.
///
/// ```
/// use ugbariteyo::{is_support_copy, First};
///
/// let mut input = [0; 60];
/// input[32] = 3; // MessageSize
/// input[36] = 3; // AllocationBodySize
/// let copy = input;
/// input[56..59].copy_from_slice(b"two");
///
/// assert!(is_support_copy(&input, First::PropertiesHeader, &copy));
/// assert!(!is_support_copy(&input, First::PropertiesHeader, &input), "it holds the body");
/// assert!(!is_support_copy(&input, First::PropertiesHeader, &copy[..59]), "a byte short");
/// assert!(!is_support_copy(&input[..59], First::PropertiesHeader, &copy), "the section is refused");
/// ```
#[inline]
pub fn is_support_copy(input: &[u8], first: First, copy: &[u8]) -> bool {
    ffi::is_support_copy(input, first, copy)
}
