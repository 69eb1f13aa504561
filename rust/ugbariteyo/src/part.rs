//! Parts: where something lies in the input.

use crate::ffi;

/// Where a part lies in the input, in bytes.
#[derive(Debug, Clone, Copy, PartialEq, Eq, Hash, Default)]
pub struct Part {
    /// The offset of its first byte.
    pub start: usize,
    /// How many bytes it has.
    pub length: usize,
}

impl Part {
    /// The bytes of this part of `input`, or `None` where it does not lie in it: it was read from another one.
    ///
    /// ```
    /// use ugbariteyo::Part;
    ///
    /// let part = Part { start: 1, length: 2 };
    /// assert_eq!(part.of(b"abcd"), Some(&b"bc"[..]));
    /// assert_eq!(part.of(b"ab"), None);
    /// ```
    #[inline]
    pub fn of(self, input: &[u8]) -> Option<&[u8]> {
        input.get(self.start..)?.get(..self.length)
    }

    /// The `N` bytes of `input` from where this part starts, or `None` where there are not so many.
    #[inline]
    pub(crate) fn array_of<const N: usize>(self, input: &[u8]) -> Option<&[u8; N]> {
        input.get(self.start..)?.first_chunk()
    }
}

impl From<ffi::Part> for Part {
    #[inline]
    fn from(part: ffi::Part) -> Self {
        Self { start: part.start, length: part.length }
    }
}

// The four functions below are the only ones of the crate that can panic, and they cannot: they are called with an
// accepted answer and what the library was lent for it, and it is proved to answer with parts that lie in what was lent
// and have their type's length (of portions, with a label for which their state has room), and to keep no more of a
// title or a signature than there is.

/// What was taken from parts that the library found.
#[inline]
pub(crate) fn present<T>(taken: Option<T>) -> T {
    taken.expect("a part that was found lies in its input and has its type's length")
}

/// The bytes of a part that the library found in `input`.
#[inline]
pub(crate) fn found(part: ffi::Part, input: &[u8]) -> &[u8] {
    present(Part::from(part).of(input))
}

/// The first units of a text, so many as are kept.
#[inline]
pub(crate) fn kept<T>(units: u32, text: &[T]) -> &[T] {
    text.get(..units as usize).expect("no more is kept than there is")
}

/// The last of these bytes, so many as are kept.
#[inline]
pub(crate) fn last(length: usize, bytes: &[u8]) -> &[u8] {
    let start = bytes.len().checked_sub(length);
    start.and_then(|start| bytes.get(start..)).expect("no more is kept than there is")
}
