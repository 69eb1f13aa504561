//! Queue formats: the type with its numbers, and images read and written.

use crate::part::{present, Part};
use crate::refusal::Refusal;
use crate::text::Text;
use crate::{ffi, ffi::accepted};

/// A queue format: its type, and its suffix type and flags in one byte.
#[derive(Debug, Clone, Copy, PartialEq, Eq, Hash, Default)]
pub struct QueueFormat {
    /// The type, one of `TYPE_..`.
    pub kind: u8,
    /// The suffix type in the low nibble, the flags in the high one.
    pub suffix_and_flags: u8,
}

impl QueueFormat {
    /// No value.
    pub const TYPE_UNKNOWN: u8 = 0x00;
    /// A public queue: a GUID.
    pub const TYPE_PUBLIC: u8 = 0x01;
    /// A private queue: an OBJECTID.
    pub const TYPE_PRIVATE: u8 = 0x02;
    /// A direct format name: a string.
    pub const TYPE_DIRECT: u8 = 0x03;
    /// A machine: a GUID.
    pub const TYPE_MACHINE: u8 = 0x04;
    /// A connector queue: a GUID.
    pub const TYPE_CONNECTOR: u8 = 0x05;
    /// A distribution list: a GUID and a string.
    pub const TYPE_DL: u8 = 0x06;
    /// A multicast address and port: a MULTICAST_ID.
    pub const TYPE_MULTICAST: u8 = 0x07;
    /// A subqueue: a string.
    pub const TYPE_SUBQUEUE: u8 = 0x08;

    /// No suffix.
    pub const SUFFIX_TYPE_NONE: u8 = 0x00;
    /// A journal.
    pub const SUFFIX_TYPE_JOURNAL: u8 = 0x01;
    /// A dead-letter queue.
    pub const SUFFIX_TYPE_DEADLETTER: u8 = 0x02;
    /// A transacted dead-letter queue.
    pub const SUFFIX_TYPE_DEADXACT: u8 = 0x03;
    /// Transactions only.
    pub const SUFFIX_TYPE_XACTONLY: u8 = 0x04;
    /// A subqueue.
    pub const SUFFIX_TYPE_SUBQUEUE: u8 = 0x05;

    /// Not a system queue.
    pub const FLAG_NOT_SYSTEM: u8 = 0x00;
    /// A system queue.
    pub const FLAG_SYSTEM: u8 = 0x80;

    /// The format of this type, with these flags and this suffix type, or `None` where one of them does not fit
    /// into its nibble. Whether the three go together is judged when the image is written.
    ///
    /// ```
    /// use ugbariteyo::QueueFormat;
    ///
    /// let machine = QueueFormat::TYPE_MACHINE;
    /// let journal = QueueFormat::new(machine, QueueFormat::FLAG_SYSTEM, QueueFormat::SUFFIX_TYPE_JOURNAL);
    /// assert_eq!(journal, Some(QueueFormat { kind: 0x04, suffix_and_flags: 0x81 }));
    /// assert_eq!(QueueFormat::new(machine, QueueFormat::FLAG_SYSTEM, 0x11), None);
    /// ```
    pub const fn new(kind: u8, flags: u8, suffix: u8) -> Option<Self> {
        let fits = flags & Self::SUFFIX == 0 && suffix & Self::FLAGS == 0;
        if fits {
            Some(Self { kind, suffix_and_flags: flags | suffix })
        } else {
            None
        }
    }

    /// The nibble of the suffix type, and that of the flags.
    const SUFFIX: u8 = 0x0F;
    const FLAGS: u8 = 0xF0;

    /// The suffix type: the low nibble.
    pub const fn suffix(self) -> u8 {
        self.suffix_and_flags & Self::SUFFIX
    }

    /// The flags: the high nibble, in its place.
    pub const fn flags(self) -> u8 {
        self.suffix_and_flags & Self::FLAGS
    }
}

/// The value in an image, by the format's type.
#[derive(Debug, Clone, Copy, PartialEq, Eq, Hash)]
pub enum Value<'a> {
    /// None, for type 0.
    Nothing,
    /// A GUID, for types 1, 4 and 5.
    Guid(&'a [u8; 16]),
    /// An OBJECTID, for type 2.
    ObjectId(&'a [u8; 20]),
    /// A MULTICAST_ID, for type 7.
    MulticastId(&'a [u8; 8]),
    /// A string, for types 3 and 8.
    Text(Text<'a>),
    /// A GUID and a string, for type 6.
    GuidAndText(&'a [u8; 16], Text<'a>),
}

impl<'a> Value<'a> {
    /// The value of this type from its parts of `input`, or `None` where one does not lie in it.
    #[inline]
    fn of(kind: u8, fixed: Part, text: Part, input: &'a [u8]) -> Option<Self> {
        let text = || text.of(input).map(Text::new);
        Some(match kind {
            QueueFormat::TYPE_PUBLIC | QueueFormat::TYPE_MACHINE | QueueFormat::TYPE_CONNECTOR => {
                Self::Guid(fixed.array_of(input)?)
            }
            QueueFormat::TYPE_PRIVATE => Self::ObjectId(fixed.array_of(input)?),
            QueueFormat::TYPE_MULTICAST => Self::MulticastId(fixed.array_of(input)?),
            QueueFormat::TYPE_DIRECT | QueueFormat::TYPE_SUBQUEUE => Self::Text(text()?),
            QueueFormat::TYPE_DL => Self::GuidAndText(fixed.array_of(input)?, text()?),
            _ => Self::Nothing,
        })
    }

    /// The bytes of the GUID, OBJECTID or MULTICAST_ID; empty where the type has none.
    #[inline]
    pub fn fixed(self) -> &'a [u8] {
        match self {
            Self::Nothing | Self::Text(_) => &[],
            Self::Guid(id) | Self::GuidAndText(id, _) => id,
            Self::ObjectId(id) => id,
            Self::MulticastId(id) => id,
        }
    }

    /// The string; empty where the type has none.
    #[inline]
    pub fn text(self) -> Text<'a> {
        match self {
            Self::Text(text) | Self::GuidAndText(_, text) => text,
            Self::Nothing | Self::Guid(_) | Self::ObjectId(_) | Self::MulticastId(_) => Text::default(),
        }
    }
}

/// What an image holds: a queue format and its value.
#[derive(Debug, Clone, Copy, PartialEq, Eq, Hash)]
pub struct Image<'a> {
    /// The type, suffix and flags.
    pub format: QueueFormat,
    /// The value.
    pub value: Value<'a>,
}

/// Reads `input`, which is exactly one image.
///
/// # Errors
///
/// 1 where `input` has less than 4 bytes, then 30 to 33.
///
/// ```
/// use ugbariteyo::{read_image, QueueFormat, Value};
///
/// let image = read_image(b"\x03\x00\0\0q\0\0\0")?;
/// assert_eq!(image.format.kind, QueueFormat::TYPE_DIRECT);
/// assert!(matches!(image.value, Value::Text(name) if name.to_string() == "q"));
/// # Ok::<(), ugbariteyo::Refusal>(())
/// ```
#[inline]
pub fn read_image(input: &[u8]) -> Result<Image<'_>, Refusal> {
    let answer = ffi::read_image(input);
    accepted(answer.refusal)?;
    let format = QueueFormat { kind: answer.format.kind, suffix_and_flags: answer.format.suffix_and_flags };
    let value = Value::of(format.kind, answer.fixed.into(), answer.text.into(), input);
    Ok(Image { format, value: present(value) })
}

/// Writes an image to the front of `out`, and gives its length. A string has its null. Bytes of `out` behind the
/// image stay as they were.
///
/// # Errors
///
/// 30 to 33, then 13 where `out` is shorter than the image. Nothing is written then.
///
/// ```
/// use ugbariteyo::{read_image, write_image};
///
/// let bytes = b"\x03\x00\0\0q\0\0\0";
/// let mut out = [0; 8];
/// assert_eq!(write_image(&read_image(bytes)?, &mut out), Ok(8));
/// assert_eq!(&out, bytes);
/// # Ok::<(), ugbariteyo::Refusal>(())
/// ```
#[inline]
pub fn write_image(image: &Image<'_>, out: &mut [u8]) -> Result<usize, Refusal> {
    write_image_parts(image.format, image.value.fixed(), image.value.text().bytes(), out)
}

/// Writes the image of a format, with the two parts of its value as they are: the bytes of a GUID, OBJECTID or
/// MULTICAST_ID, and a string with its null. Each is empty where the type has none.
///
/// # Errors
///
/// As of [`write_image`].
#[inline]
pub fn write_image_parts(
    format: QueueFormat,
    fixed: &[u8],
    text: &[u8],
    out: &mut [u8],
) -> Result<usize, Refusal> {
    let format = ffi::QueueFormat { kind: format.kind, suffix_and_flags: format.suffix_and_flags };
    ffi::written(ffi::write_image(format, fixed, text, out))
}
