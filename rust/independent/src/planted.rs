//! Wrong versions that a comparison has to find: for each kind one or two plain functions with their
//! answer or their output changed a little, and every function with two neighbouring steps of its
//! list exchanged. What C-12 says of portions, C-15 of a day's file, C-16 of bodies, C-17 of places, C-18 of
//! properties, and C-24 of copies and refusals has its wrong versions in files of their own.

mod day;
mod dependent;
mod fields;
mod places;
mod portions;
mod properties;
mod proposed;
mod value;

pub use day::{read_day, WrongDay};
pub use dependent::{read_dependent, support_copy_dependent, Dependence};
pub use fields::{field_of, WrongField};
pub use places::{
    copy_day_at_headers, list_placed, read_placed, support_copy_placed, write_placed, WrongPlace,
};
pub use portions::{Portions, WrongPortions};
pub use properties::{defaulted_timed, properties, send_timed, WrongKnown, WrongTime};
pub use proposed::{is_support_copy, WrongYes};
pub use value::{read_value, value_of, write_value, WrongNumber, WrongValue, WrongWriting};

use std::io::{self, Read, Write};

use crate::bytes::padded;
use crate::copies::{self, Copies};
use crate::copy::support_copy_by;
use crate::listing::{self, Answer, Line, RECORD};
use crate::lists::{encryption_is_allowed, hash_is_retired, privacy_is_retired};
use crate::order::{exchanged, Step};
use crate::properties::{Handling, Properties};
use crate::queue::{self, Image};
use crate::read::read_by;
use crate::request::{self, Request, RequestStep, SENDING};
use crate::section::{Part, PROPERTIES_FIXED};
use crate::steps::{ENDLESS, READING, VALUE, WRITING};
use crate::value::{self as values, Value, BODY};
use crate::write::write_by;
use crate::{number, Refusal, Section, SectionValues, Summary};

/// Reads with the extension padded to 4 before the body, the customer's old fault.
pub fn read(input: &[u8], security_first: bool) -> Result<Section<'_>, Refusal> {
    let mut section = crate::read(input, security_first)?;
    let parts = &mut section.summary.parts;
    let start = parts.extension.start + padded(parts.extension.length as u64) as usize;
    parts.body = Part { start, length: parts.body.length };
    let short = Refusal { number: number::INPUT_SHORT, place: parts.label.start - PROPERTIES_FIXED };
    section.body = input.get(start..start + parts.body.length).ok_or(short)?;
    section.summary.length = padded((start + parts.body.length) as u64) as usize;
    Ok(section)
}

/// Reads with the class `extra` let through, which 01 does not list; so do the next two.
pub fn read_class(extra: u16, input: &[u8], security_first: bool) -> Result<Section<'_>, Refusal> {
    match crate::read(input, security_first) {
        Err(Refusal { number: number::CLASS, place }) if input[place..][..2] == extra.to_le_bytes() => {
            read_by(&without_class(&READING), input, security_first, ENDLESS)
        }
        answer => answer,
    }
}

/// Writes a section with one class more.
pub fn write_class(extra: u16, values: &SectionValues<'_>, out: &mut [u8]) -> Result<usize, Refusal> {
    if values.message_class == extra {
        write_by(&without_class(&WRITING), values, out)
    } else {
        crate::write_section(values, out)
    }
}

/// Sends a request with one class more.
pub fn send_class(extra: u16, request: &Request<'_>, out: &mut [u8]) -> Result<usize, Refusal> {
    if request.class != Some(extra.into()) {
        return request::send(request, out);
    }
    let listed = Request { class: None, ..*request };
    let length = request::send(&listed, out)?;
    let at = properties_at(&out[..length], request::sent(&listed)?.security_first);
    out[at + 2..at + 4].copy_from_slice(&extra.to_le_bytes());
    Ok(length)
}

/// The list without the step for the class.
fn without_class<T: Copy>(order: &[Step<T, u32>]) -> Vec<Step<T, u32>> {
    order.iter().filter(|step| step.answer != number::CLASS).copied().collect()
}

/// Verdicts on decryption other than by EB and 003's table of levels and algorithms.
#[derive(Debug, Clone, Copy, PartialEq, Eq)]
pub enum WrongVerdict {
    /// The algorithm is looked at without the level, as in 01 before C-14.
    LevelIgnored,
    /// Level 0 passes with every listed algorithm.
    LevelZero,
    /// Levels 1 and 3 are taken for a range.
    LevelTwo,
    /// The level's low byte alone is looked at.
    LevelCut,
    /// EB is not looked at.
    EbIgnored,
}

impl WrongVerdict {
    /// All of them.
    pub const ALL: [Self; 5] =
        [Self::LevelIgnored, Self::LevelZero, Self::LevelTwo, Self::LevelCut, Self::EbIgnored];

    fn fails(self, summary: &Summary<'_>) -> bool {
        let encrypted = is_encrypted(summary);
        let (privacy, algorithm) = (summary.properties.privacy, summary.properties.encryption);
        let listed = matches!(algorithm, 0x6602 | 0x660E | 0x660F | 0x6610 | 0x6801);
        let allowed = |level| encryption_is_allowed(level, algorithm);
        match self {
            Self::LevelIgnored => encrypted && !listed,
            Self::LevelZero => encrypted && !allowed(privacy) && !(privacy == 0 && listed),
            Self::LevelTwo => encrypted && !allowed(if privacy == 2 { 1 } else { privacy }),
            Self::LevelCut => encrypted && !allowed(privacy & 0xFF),
            Self::EbIgnored => !allowed(privacy),
        }
    }
}

/// Reads with a wrong verdict on decryption.
pub fn read_verdict(wrong: WrongVerdict, input: &[u8], security_first: bool) -> Result<Section<'_>, Refusal> {
    let mut section = crate::read(input, security_first)?;
    section.summary.decryption_fails = wrong.fails(&section.summary);
    Ok(section)
}

/// Verdicts on what is retired other than by level 1 and by a signature's hash.
#[derive(Debug, Clone, Copy, PartialEq, Eq)]
pub enum WrongRetired {
    /// Level 2 is retired too, as a number next to 1.
    LevelTwo,
    /// Level 3 is retired too, as the other level with RC2 and RC4.
    LevelThree,
    /// The level's low byte alone is looked at.
    LevelCut,
    /// The level is looked at only where EB is set.
    EbAsked,
    /// The level is looked at only in a section with a SecurityHeader.
    HeaderAsked,
    /// SHA-1 is retired too.
    Sha1,
    /// MD5 is not retired.
    Md5Left,
    /// The hash's low 16 bits alone are looked at.
    HashCut,
    /// The hash is looked at without a signature.
    Unsigned,
    /// The level alone is looked at.
    HashIgnored,
    /// Level and hash are both to be retired.
    BothAsked,
}

impl WrongRetired {
    /// All of them.
    pub const ALL: [Self; 11] = [
        Self::LevelTwo,
        Self::LevelThree,
        Self::LevelCut,
        Self::EbAsked,
        Self::HeaderAsked,
        Self::Sha1,
        Self::Md5Left,
        Self::HashCut,
        Self::Unsigned,
        Self::HashIgnored,
        Self::BothAsked,
    ];

    fn is_retired(self, summary: &Summary<'_>) -> bool {
        let (level, hash) = (summary.properties.privacy, summary.properties.hash);
        let signed = summary.security.is_some_and(|security| security.signature_size != 0);
        let by_level = privacy_is_retired(level);
        let by_hash = signed && hash_is_retired(hash);
        match self {
            Self::LevelTwo => by_level || by_hash || level == 2,
            Self::LevelThree => by_level || by_hash || level == 3,
            Self::LevelCut => privacy_is_retired(level & 0xFF) || by_hash,
            Self::EbAsked => by_level && is_encrypted(summary) || by_hash,
            Self::HeaderAsked => by_level && summary.security.is_some() || by_hash,
            Self::Sha1 => by_level || by_hash || signed && hash == 0x8004,
            Self::Md5Left => by_level || by_hash && hash != 0x8003,
            Self::HashCut => by_level || signed && hash_is_retired(hash & 0xFFFF),
            Self::Unsigned => by_level || hash_is_retired(hash),
            Self::HashIgnored => by_level,
            Self::BothAsked => by_level && by_hash,
        }
    }
}

/// Reads with a wrong verdict on what is retired.
pub fn read_retired(wrong: WrongRetired, input: &[u8], security_first: bool) -> Result<Section<'_>, Refusal> {
    let mut section = crate::read(input, security_first)?;
    section.summary.retired = wrong.is_retired(&section.summary);
    Ok(section)
}

/// Writes no section that is retired, where "the section writer still writes them".
pub fn write_retired(values: &SectionValues<'_>, out: &mut [u8]) -> Result<usize, Refusal> {
    let signed = values.security_first && !values.signature.is_empty();
    if privacy_is_retired(values.privacy_level) || signed && hash_is_retired(values.hash_algorithm) {
        return Err(Refusal::at_start(number::RETIRED));
    }
    crate::write_section(values, out)
}

/// EB, where there is a SecurityHeader.
fn is_encrypted(summary: &Summary<'_>) -> bool {
    summary.security.is_some_and(|security| security.flags.body_encrypted())
}

/// Steps of a request other than C-21's, by their test 29 or by its place.
#[derive(Debug, Clone, Copy, PartialEq, Eq)]
pub enum WrongStep {
    /// 29 is left out, as before C-21.
    LeftOut,
    /// Privacy 2 is refused too.
    PrivacyTwo,
    /// Privacy alone is looked at.
    HashIgnored,
    /// SHA-1 is refused too.
    Sha1,
    /// The hash's low 16 bits alone are looked at.
    HashCut,
    /// The hash is looked at without signature bytes.
    Unsigned,
    /// An absent hash is refused with 29 rather than 24.
    HashAbsent,
    /// 29 comes beside 21, before 22, 23 and 24.
    BesidePrivacy,
    /// 29 comes behind 27, when the signature is cut.
    BehindCut,
}

impl WrongStep {
    /// All of them.
    pub const ALL: [Self; 9] = [
        Self::LeftOut,
        Self::PrivacyTwo,
        Self::HashIgnored,
        Self::Sha1,
        Self::HashCut,
        Self::Unsigned,
        Self::HashAbsent,
        Self::BesidePrivacy,
        Self::BehindCut,
    ];

    fn order(self) -> [RequestStep; SENDING.len()] {
        let place = |name| SENDING.iter().position(|step| step.name == name).expect("a step's name");
        let (mut order, at) = (SENDING, place("29"));
        let test = &mut order[at].test;
        match self {
            Self::LeftOut => *test = |_| false,
            Self::PrivacyTwo => *test = |f| f.is_retired() || f.privacy_level() == 2,
            Self::HashIgnored => *test = |f| privacy_is_retired(f.privacy_level()),
            Self::Sha1 => {
                *test = |f| f.is_retired() || f.is_signed() && f.values.carried.hash_algorithm == 0x8004;
            }
            Self::HashCut => {
                *test = |f| {
                    let hash = f.values.carried.hash_algorithm & 0xFFFF;
                    f.is_retired() || f.is_signed() && hash_is_retired(hash)
                };
            }
            Self::Unsigned => {
                *test = |f| f.is_retired() || hash_is_retired(f.values.carried.hash_algorithm);
            }
            Self::HashAbsent => order[place("24")].answer = number::RETIRED,
            Self::BesidePrivacy => order[place("22")..=at].rotate_right(1),
            Self::BehindCut => order[at..=place("27")].rotate_left(1),
        }
        order
    }
}

/// Defaults by wrong steps.
pub fn defaulted_retired<'a>(wrong: WrongStep, request: &Request<'a>) -> Result<Properties<'a>, Refusal> {
    request::defaulted_by(&wrong.order(), request)
}

/// Sends by wrong steps.
pub fn send_retired(wrong: WrongStep, request: &Request<'_>, out: &mut [u8]) -> Result<usize, Refusal> {
    request::send_by(&wrong.order(), request, out)
}

/// The list with one step right before another.
fn moved<T: Copy, A: Copy>(order: &[Step<T, A>], step: &str, before: &str) -> Vec<Step<T, A>> {
    let (steps, mut order): (Vec<_>, Vec<_>) = order.iter().copied().partition(|one| one.name == step);
    let at = order.iter().position(|one| one.name == before).expect("a step's name");
    order.splice(at..at, steps);
    order
}

/// Copies the X bits of the properties Flags too, which are private.
pub fn support_copy(input: &[u8], security_first: bool, out: &mut [u8]) -> Result<usize, Refusal> {
    let length = crate::support_copy(input, security_first, out)?;
    let at = properties_at(&input[..length], security_first);
    out[at] = input[at];
    Ok(length)
}

/// Writes the label's bytes where its 16-bit units have to stand.
pub fn write_section(values: &SectionValues<'_>, out: &mut [u8]) -> Result<usize, Refusal> {
    let length = crate::write_section(values, out)?;
    let at = properties_at(&out[..length], values.security_first);
    out[at + 1] = values.label.len() as u8;
    Ok(length)
}

/// Refuses an image whose reserved bytes are not zero.
pub fn read_image(input: &[u8]) -> Result<Image<'_>, Refusal> {
    let image = queue::read_image(input)?;
    if input[2..4] == [0, 0] {
        Ok(image)
    } else {
        Err(Refusal::at_start(number::QUEUE_PAIR))
    }
}

/// Leaves the reserved bytes as they stood in the output.
pub fn write_image(
    kind: u8,
    suffix_and_flags: u8,
    fixed: &[u8],
    text: &[u8],
    out: &mut [u8],
) -> Result<usize, Refusal> {
    let stood = out.get(2..4).map(|reserved| [reserved[0], reserved[1]]);
    let length = queue::write_image(kind, suffix_and_flags, fixed, text, out)?;
    if let Some(reserved) = stood {
        out[2..4].copy_from_slice(&reserved);
    }
    Ok(length)
}

/// Leaves the delivery of a transaction as it was given.
pub fn defaulted<'a>(request: &Request<'a>) -> Result<Properties<'a>, Refusal> {
    let properties = request::defaulted(request)?;
    let delivery = request.delivery.unwrap_or(0);
    let handling = properties.handling.map(|handling| Handling { delivery, ..handling });
    Ok(Properties { handling, ..properties })
}

/// Copies the request's privacy 2 into the packet.
pub fn send(request: &Request<'_>, out: &mut [u8]) -> Result<usize, Refusal> {
    let length = request::send(request, out)?;
    let at = properties_at(&out[..length], request::sent(request)?.security_first);
    out[at + 40..at + 44].copy_from_slice(&request.privacy_level.unwrap_or(0).to_le_bytes());
    Ok(length)
}

/// Reads with the step at `at` of its list and the next one exchanged; so do the others below.
pub fn read_exchanged(at: usize, input: &[u8], security_first: bool) -> Result<Section<'_>, Refusal> {
    read_by(&exchanged(READING, at), input, security_first, ENDLESS)
}

/// Copies with two steps exchanged.
pub fn support_copy_exchanged(
    at: usize,
    input: &[u8],
    security_first: bool,
    out: &mut [u8],
) -> Result<usize, Refusal> {
    support_copy_by(&exchanged(READING, at), input, security_first, out)
}

/// Writes a section with two steps exchanged.
pub fn write_exchanged(at: usize, values: &SectionValues<'_>, out: &mut [u8]) -> Result<usize, Refusal> {
    write_by(&exchanged(WRITING, at), values, out)
}

/// Reads a queue format with two steps exchanged.
pub fn read_image_exchanged(at: usize, input: &[u8]) -> Result<Image<'_>, Refusal> {
    queue::read_by(&exchanged(queue::READING, at), input)
}

/// Writes a queue format with two steps exchanged.
pub fn write_image_exchanged(
    at: usize,
    format: [u8; 2],
    fixed: &[u8],
    text: &[u8],
    out: &mut [u8],
) -> Result<usize, Refusal> {
    queue::write_by(&exchanged(queue::WRITING, at), format, fixed, text, out)
}

/// Defaults with two steps exchanged.
pub fn defaulted_exchanged<'a>(at: usize, request: &Request<'a>) -> Result<Properties<'a>, Refusal> {
    request::defaulted_by(&exchanged(SENDING, at), request)
}

/// Sends with two steps exchanged.
pub fn send_exchanged(at: usize, request: &Request<'_>, out: &mut [u8]) -> Result<usize, Refusal> {
    request::send_by(&exchanged(SENDING, at), request, out)
}

/// Reads a body's number with two steps exchanged.
pub fn read_value_exchanged(at: usize, input: &[u8], security_first: bool) -> Result<Value, Refusal> {
    values::read_by(&exchanged(VALUE, at), input, security_first)
}

/// Takes a body for a number with two steps exchanged.
pub fn value_of_exchanged(at: usize, body_type: u32, body: &[u8]) -> Result<Value, Refusal> {
    values::of_by(&exchanged(BODY, at), body_type, body)
}

/// Lists with two tests before a record exchanged.
pub fn list_exchanged(at: usize, input: impl Read, output: impl Write) -> io::Result<()> {
    listing::list_by(&exchanged(RECORD, at), listing::answer, listing::push_line, input, output)
}

/// The tests of a record's head without which a record can still be read.
pub const HEAD_TESTS: [&str; 4] = ["mark", "security byte", "zero byte", "length"];

/// Lists without one of the [`HEAD_TESTS`].
pub fn list_without(test: &str, input: impl Read, output: impl Write) -> io::Result<()> {
    let mut order = RECORD.to_vec();
    order.retain(|step| step.name != test);
    listing::list_by(&order, listing::answer, listing::push_line, input, output)
}

/// Gives the label's bytes where its 16-bit units have to stand.
pub fn line(number: u64, answer: &Answer) -> String {
    listing::line(number, &label_in_bytes(answer))
}

/// Lists with [`line()`].
pub fn list(input: impl Read, output: impl Write) -> io::Result<()> {
    let push = |lines: &mut Vec<u8>, number: u64, answer: &Answer| {
        listing::push_line(lines, number, &label_in_bytes(answer));
    };
    listing::list_by(&RECORD, listing::answer, push, input, output)
}

fn label_in_bytes(answer: &Answer) -> Answer {
    answer.map(|line| Line { label: 2 * line.label, ..line })
}

/// Where the properties header of an accepted section begins.
fn properties_at(section: &[u8], security_first: bool) -> usize {
    crate::read(section, security_first).map_or(0, |s| s.summary.parts.label.start - PROPERTIES_FIXED)
}

/// Copies a day file and keeps each record's length, with zeros behind the copy.
pub fn copy_day_length_kept(file: &[u8]) -> Copies {
    let record = |section: &[u8], security_first| {
        let mut bytes = copies::copy(section, security_first)?;
        bytes.resize(section.len(), 0);
        Ok(copies::with_head(&bytes, section.len(), security_first))
    };
    copies::copy_day_by(record, file)
}

/// Copies a day file and loses the byte for security first.
pub fn copy_day_security_lost(file: &[u8]) -> Copies {
    let record = |section: &[u8], security_first| {
        let bytes = copies::copy(section, security_first)?;
        Ok(copies::with_head(&bytes, bytes.len(), false))
    };
    copies::copy_day_by(record, file)
}

/// Copies a day file and writes an empty record for one that is refused.
pub fn copy_day_refused_written(file: &[u8]) -> Copies {
    let record = |section: &[u8], security_first| {
        copies::copied(section, security_first).or(Ok(copies::with_head(&[], 0, security_first)))
    };
    copies::copy_day_by(record, file)
}
