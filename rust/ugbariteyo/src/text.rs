//! Text of 16-bit units, as it lies in sections and images: little-endian, its null included. And titles, which have no
//! null.

use std::fmt::{self, Write};
use std::hash::{Hash, Hasher};

use crate::part::kept;

/// A count of 16-bit units. Lengths of slices count bytes.
#[derive(Debug, Clone, Copy, PartialEq, Eq, PartialOrd, Ord, Hash, Default)]
pub struct Units(pub u32);

impl Units {
    /// So many units take twice as many bytes.
    #[inline]
    pub fn bytes(self) -> usize {
        2 * self.0 as usize
    }
}

/// The text in a part of the input. It is displayed without its null; what is no UTF-16 becomes U+FFFD.
#[derive(Clone, Copy, PartialEq, Eq, Hash, Default)]
pub struct Text<'a>(&'a [u8]);

impl<'a> Text<'a> {
    /// The text in these bytes. A last odd byte is no unit.
    #[inline]
    pub fn new(bytes: &'a [u8]) -> Self {
        Self(bytes)
    }

    /// The bytes as they lie, null included.
    #[inline]
    pub fn bytes(self) -> &'a [u8] {
        self.0
    }

    /// The units, without the null at the end.
    #[inline]
    pub fn units(self) -> impl Iterator<Item = u16> + 'a {
        let (units, _) = self.0.as_chunks();
        let units = units.strip_suffix(&[[0; 2]]).unwrap_or(units);
        units.iter().copied().map(u16::from_le_bytes)
    }
}

impl fmt::Display for Text<'_> {
    fn fmt(&self, f: &mut fmt::Formatter<'_>) -> fmt::Result {
        show(self.units(), f)
    }
}

impl fmt::Debug for Text<'_> {
    fn fmt(&self, f: &mut fmt::Formatter<'_>) -> fmt::Result {
        fmt::Debug::fmt(&self.to_string(), f)
    }
}

/// The title of a message: 16-bit units without a null, lent with a request or lying in a label. It is displayed as a
/// [`Text`] is.
#[derive(Clone, Copy)]
pub struct Title<'a>(Source<'a>);

/// Where the units of a title are.
#[derive(Clone, Copy)]
enum Source<'a> {
    Request(&'a [u16]),
    /// Little-endian.
    Label(&'a [[u8; 2]]),
}

impl<'a> Title<'a> {
    /// All of these units.
    #[inline]
    pub(crate) fn of_units(units: &'a [u16]) -> Self {
        Self(Source::Request(units))
    }

    /// All of the units in a label, its null too.
    #[inline]
    pub(crate) fn of_label(label: &'a [u8]) -> Self {
        Self(Source::Label(label.as_chunks().0))
    }

    /// Its first units, so many as are kept.
    #[inline]
    pub(crate) fn kept(self, units: u32) -> Self {
        Self(match self.0 {
            Source::Request(given) => Source::Request(kept(units, given)),
            Source::Label(label) => Source::Label(kept(units, label)),
        })
    }

    /// The units.
    #[inline]
    pub fn units(self) -> impl Iterator<Item = u16> + 'a {
        let (given, label) = match self.0 {
            Source::Request(given) => (given, &[][..]),
            Source::Label(label) => (&[][..], label),
        };
        given.iter().copied().chain(label.iter().copied().map(u16::from_le_bytes))
    }

    /// How many units it has: at most 249.
    #[inline]
    pub fn length(self) -> Units {
        let length = match self.0 {
            Source::Request(given) => given.len(),
            Source::Label(label) => label.len(),
        };
        Units(length as u32)
    }
}

/// Two titles are equal when their units are, wherever they lie.
impl PartialEq for Title<'_> {
    fn eq(&self, other: &Self) -> bool {
        self.units().eq(other.units())
    }
}

impl Eq for Title<'_> {}

impl Hash for Title<'_> {
    fn hash<H: Hasher>(&self, state: &mut H) {
        self.length().hash(state);
        self.units().for_each(|unit| unit.hash(state));
    }
}

impl fmt::Display for Title<'_> {
    fn fmt(&self, f: &mut fmt::Formatter<'_>) -> fmt::Result {
        show(self.units(), f)
    }
}

impl fmt::Debug for Title<'_> {
    fn fmt(&self, f: &mut fmt::Formatter<'_>) -> fmt::Result {
        fmt::Debug::fmt(&self.to_string(), f)
    }
}

/// Writes units as text; what is no UTF-16 becomes U+FFFD.
fn show(units: impl Iterator<Item = u16>, f: &mut fmt::Formatter<'_>) -> fmt::Result {
    char::decode_utf16(units).try_for_each(|c| f.write_char(c.unwrap_or(char::REPLACEMENT_CHARACTER)))
}

/// The bytes of a text with a null added, for a label, a provider's name or a queue's string.
///
/// ```
/// assert_eq!(ugbariteyo::text_bytes("ab"), [b'a', 0, b'b', 0, 0, 0]);
/// ```
pub fn text_bytes(text: &str) -> Vec<u8> {
    text.encode_utf16().chain([0]).flat_map(u16::to_le_bytes).collect()
}
