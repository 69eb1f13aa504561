//! Queue format images: "type, suffix and flags, two reserved bytes (ignored when read, zero when
//! written), then the value. The input is exactly one image."

use crate::bytes::only_last_is_zero;
use crate::order::{first_failure, Judged, Step};
use crate::{number, Refusal};

/// The bytes before the value.
pub const HEAD: usize = 4;
/// The most 16-bit units of a string, its null included.
pub const STRING_MOST: usize = 1_024;

/// One queue format.
#[derive(Debug, Clone, Copy, PartialEq, Eq)]
pub struct Image<'a> {
    /// The queue type, 0 to 8.
    pub kind: u8,
    /// The suffix in the low nibble, the flags in the high one.
    pub suffix_and_flags: u8,
    /// The value that goes with the type.
    pub value: Value<'a>,
}

/// A queue format's value. A text is the string's units with their null, as bytes.
#[derive(Debug, Clone, Copy, PartialEq, Eq)]
pub enum Value<'a> {
    /// Type 0: nothing.
    None,
    /// Types 1, 4 and 5: a GUID.
    Guid(&'a [u8; 16]),
    /// Type 2: an OBJECTID.
    ObjectId(&'a [u8; 20]),
    /// Types 3 and 8: a string.
    Text(&'a [u8]),
    /// Type 6: a GUID and a string.
    GuidAndText(&'a [u8; 16], &'a [u8]),
    /// Type 7: a MULTICAST_ID.
    MulticastId(&'a [u8; 8]),
}

impl<'a> Value<'a> {
    /// The bytes of the GUID, OBJECTID or MULTICAST_ID; empty where the type has none.
    pub fn fixed(self) -> &'a [u8] {
        match self {
            Self::None | Self::Text(_) => &[],
            Self::Guid(guid) | Self::GuidAndText(guid, _) => guid,
            Self::ObjectId(id) => id,
            Self::MulticastId(id) => id,
        }
    }
    /// The bytes of the string; empty where the type has none.
    pub fn text(self) -> &'a [u8] {
        match self {
            Self::Text(text) | Self::GuidAndText(_, text) => text,
            _ => &[],
        }
    }
}

/// Reads the one image that `input` is. Refuses with 1, 30, 31, 32, 33 in this order, place 0.
pub fn read_image(input: &[u8]) -> Result<Image<'_>, Refusal> {
    read_by(&READING, input)
}

/// Writes one image to the start of `out` and gives its length; the reserved bytes are written
/// zero. `fixed` are the bytes of the GUID, OBJECTID or MULTICAST_ID and `text` those of the string,
/// each empty where the type has none. Refuses with 30, 31, 32, 33, 13 in this order, place 0; a
/// refusal writes nothing.
pub fn write_image(
    kind: u8,
    suffix_and_flags: u8,
    fixed: &[u8],
    text: &[u8],
    out: &mut [u8],
) -> Result<usize, Refusal> {
    write_by(&WRITING, [kind, suffix_and_flags], fixed, text, out)
}

/// [`read_image`] by the steps of `order`.
#[inline(always)]
pub(crate) fn read_by<'a>(order: &[QueueStep], input: &'a [u8]) -> Result<Image<'a>, Refusal> {
    let given = Given::in_input(input);
    given.judge(order)?;
    let Given { kind, suffix_and_flags, .. } = given;
    Ok(Image { kind, suffix_and_flags, value: given.value() })
}

/// [`write_image`] by the steps of `order`.
#[inline(always)]
pub(crate) fn write_by(
    order: &[QueueStep],
    format: [u8; 2],
    fixed: &[u8],
    text: &[u8],
    out: &mut [u8],
) -> Result<usize, Refusal> {
    let given = Given::new(format, fixed, text, out.len());
    given.judge(order)?;
    let image = &mut out[..given.length()];
    let (head, value) = image.split_at_mut(HEAD);
    head.copy_from_slice(&[given.kind, given.suffix_and_flags, 0, 0]);
    let (fixed_place, text_place) = value.split_at_mut(fixed.len());
    fixed_place.copy_from_slice(fixed);
    text_place.copy_from_slice(text);
    Ok(image.len())
}

/// A step of a queue format; it answers with the refusal's number.
pub(crate) type QueueStep = Step<fn(&Given<'_>) -> bool, u32>;

const fn step(name: &'static str, number: u32, fails: fn(&Given<'_>) -> bool) -> QueueStep {
    Step { name, answer: number, test: fails }
}

const INPUT: QueueStep = step("1", number::INPUT_SHORT, |g| g.bytes < HEAD);
const TYPE: QueueStep = step("30", number::QUEUE_TYPE, |g| g.kind > 8);
const PAIR: QueueStep = step("31", number::QUEUE_PAIR, |g| !pair_passes(g.kind, g.suffix_and_flags));
const LENGTH: QueueStep = step("32", number::VALUE_LENGTH, |g| !g.lengths_fit());
const TEXT: QueueStep = step("33", number::STRING, |g| !g.string_fits());
const OUTPUT: QueueStep = step("13", number::OUTPUT_SHORT, |g| g.length() > g.bytes);

/// The steps of reading.
pub(crate) const READING: [QueueStep; 5] = [INPUT, TYPE, PAIR, LENGTH, TEXT];
/// The steps of the writer: "the same order without 1, then 13".
pub(crate) const WRITING: [QueueStep; 5] = [TYPE, PAIR, LENGTH, TEXT, OUTPUT];

/// A queue format as its steps look at it, read or to be written.
pub(crate) struct Given<'a> {
    kind: u8,
    suffix_and_flags: u8,
    /// The value but its string.
    fixed: &'a [u8],
    text: &'a [u8],
    /// The bytes of the input, or of the lent output.
    bytes: usize,
}

impl Judged for Given<'_> {
    type Test = fn(&Given<'_>) -> bool;
    type Answer = u32;

    #[inline(always)]
    fn fails(&self, test: &Self::Test) -> bool {
        test(self)
    }
}

impl<'a> Given<'a> {
    /// The queue format to be written to so many bytes.
    pub(crate) fn new(format: [u8; 2], fixed: &'a [u8], text: &'a [u8], bytes: usize) -> Self {
        let [kind, suffix_and_flags] = format;
        Self { kind, suffix_and_flags, fixed, text, bytes }
    }

    /// The image that `input` is. A head that is cut counts as zeros: 1 comes before all that looks
    /// at it.
    pub(crate) fn in_input(input: &'a [u8]) -> Self {
        let (&[kind, suffix_and_flags, _, _], value) =
            input.split_first_chunk::<HEAD>().unwrap_or((&[0; HEAD], &[]));
        let (fixed, text) = match kind {
            3 | 8 => (&[][..], value),
            6 => value.split_at(value.len().min(fixed_length(kind))),
            _ => (value, &[][..]),
        };
        Self::new([kind, suffix_and_flags], fixed, text, input.len())
    }

    #[inline(always)]
    fn judge(&self, order: &[QueueStep]) -> Result<(), Refusal> {
        first_failure(order, self).map_or(Ok(()), |step| Err(Refusal::at_start(step.answer)))
    }

    /// The image's length.
    fn length(&self) -> usize {
        HEAD + self.fixed.len() + self.text.len()
    }

    /// 32.
    fn lengths_fit(&self) -> bool {
        let text_fits = match self.kind {
            3 | 8 => true,
            6 => self.text.len() >= 2,
            _ => self.text.is_empty(),
        };
        text_fits && self.fixed.len() == fixed_length(self.kind)
    }

    /// 33: "16-bit units, the last and no other zero, at most 1,024 units; for 3 and 8 at least 2".
    /// Types without a string pass.
    fn string_fits(&self) -> bool {
        let least = match self.kind {
            3 | 8 => 2,
            6 => 1,
            _ => return true,
        };
        let length = self.text.len();
        let sized = length.is_multiple_of(2) && (2 * least..=2 * STRING_MOST).contains(&length);
        sized && only_last_is_zero(self.text)
    }

    /// The value, whose lengths passed 32.
    fn value(&self) -> Value<'a> {
        match self.kind {
            0 => Value::None,
            2 => Value::ObjectId(exactly(self.fixed)),
            3 | 8 => Value::Text(self.text),
            6 => Value::GuidAndText(exactly(self.fixed), self.text),
            7 => Value::MulticastId(exactly(self.fixed)),
            _ => Value::Guid(exactly(self.fixed)),
        }
    }
}

/// `fixed`, which has `N` bytes.
fn exactly<const N: usize>(fixed: &[u8]) -> &[u8; N] {
    fixed.try_into().expect("the length passed 32")
}

/// The bytes before a string, of a type of at most 8.
fn fixed_length(kind: u8) -> usize {
    match kind {
        1 | 4 | 5 | 6 => 16,
        2 => 20,
        7 => 8,
        _ => 0,
    }
}

/// 31.
fn pair_passes(kind: u8, suffix_and_flags: u8) -> bool {
    match suffix_and_flags {
        0x00 => kind != 4,
        0x81 => !matches!(kind, 5..=7),
        0x82 => !matches!(kind, 1 | 2 | 5..=7),
        0x83 => matches!(kind, 3 | 4),
        0x04 | 0x84 => kind == 5,
        0x05 => kind == 8,
        _ => false,
    }
}
