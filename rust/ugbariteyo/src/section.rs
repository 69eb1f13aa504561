//! Reading a section: an optional SecurityHeader, then a MessagePropertiesHeader.

use crate::ffi;
use crate::part::found;
use crate::reading::Reading;
use crate::refusal::Refusal;
use crate::summary::Summary;

/// The most bytes that a section may have.
pub const LIMIT: usize = 4_194_304;

/// Which header stands first in a section. The section does not tell: the caller has to know.
#[derive(Debug, Clone, Copy, PartialEq, Eq, Hash, Default)]
#[repr(u8)] // in C a bool: whether a SecurityHeader stands first
pub enum First {
    /// A SecurityHeader, and a MessagePropertiesHeader behind it.
    SecurityHeader = 1,
    /// A MessagePropertiesHeader, without a SecurityHeader.
    #[default]
    PropertiesHeader = 0,
}

/// Reads the section at the start of `input`.
///
/// # Errors
///
/// 1 to 12, of the first step that fails, at the place that [`Refusal`] gives it.
///
/// ```
/// use ugbariteyo::{read, First};
///
/// let section = read(&[0; 56], First::PropertiesHeader)?;
/// assert_eq!(section.section_length(), 56);
/// assert_eq!(read(&[0; 55], First::PropertiesHeader).unwrap_err().number, 1);
/// # Ok::<(), ugbariteyo::Refusal>(())
/// ```
#[inline]
pub fn read(input: &[u8], first: First) -> Result<Reading<'_>, Refusal> {
    Reading::new(input, first)
}

/// The summary of the section at the start of `input`.
///
/// # Errors
///
/// As of [`read`].
#[inline]
pub fn summarize(input: &[u8], first: First) -> Result<Summary<'_>, Refusal> {
    read(input, first).map(|reading| reading.summary())
}

/// Whether both inputs are accepted and have the same summary: they agree in every judged bit.
#[inline]
pub fn same_summary(a: &[u8], b: &[u8], first: First) -> bool {
    ffi::same_summary(a, b, first)
}

/// The label for display, null included, or the stand-in where LabelLength is 0 or reading is refused.
#[inline]
pub fn label_shown<'a>(input: &'a [u8], first: First, stand_in: &'a [u8]) -> &'a [u8] {
    let label = ffi::label_shown(input, first);
    if label.stand_in {
        stand_in
    } else {
        found(label.part, input)
    }
}
