//! 01's examples, C-12's, C-14's to C-18's, C-21's and C-24's, held against each side. Where nothing else is said, their
//! parts have content that passes S10, S11 and P7.

mod portions;
mod values;

use crate::days::{self, Day};
use crate::lend::lend;
use crate::report::{agree, Check, Tally};
use crate::side::{
    Answer, FieldAt, Line, Part, Privacy, Refusal, Request, SectionValues, Sender, Side, Sides, Source,
};

/// An example's name, and what it says of a side.
type Example = (&'static str, fn(&dyn Side) -> Check);

/// The examples, by their numbers.
const EXAMPLES: [Example; 25] = [
    ("example 1", zero_bytes),
    ("example 2", parts_in_a_row),
    ("example 3", longest_label),
    ("example 4", label_of_one_unit),
    ("example 5", classes),
    ("example 6", at_the_limit),
    ("example 7", key_and_certificate),
    ("example 8", identity_and_signature),
    ("example 9", provider_info),
    ("example 10", queue_pairs),
    ("example 11", titles),
    ("the listing's example", listing),
    ("C-12's example of calls", portions::calls),
    ("C-12's example of refusals", portions::refusals),
    ("C-12's example of a summary", portions::summary),
    ("C-14's example", level_and_algorithm),
    ("C-15's example", day),
    ("C-16's example of numbers", values::numbers),
    ("C-16's example of refusals", values::refusals),
    ("C-16's example of readings", values::readings),
    ("C-17's example", places),
    ("C-18's example of requests", times),
    ("C-18's example of sections", properties),
    ("C-21's example", retired),
    ("C-24's example", proposed),
];

/// Holds every example against both sides.
pub fn run(sides: Sides<'_>) -> Tally {
    let mut tally = Tally::new("examples");
    for (name, example) in EXAMPLES {
        for side in [sides.one, sides.other] {
            tally.add(&Ok(()), example(side), || name.into());
        }
    }
    tally
}

const LIMIT: usize = 4_194_304;

/// The values of a section with nothing in it.
fn plain() -> SectionValues<'static> {
    SectionValues::default()
}

/// The values of a section with a SecurityHeader that has DP set.
fn secured() -> SectionValues<'static> {
    SectionValues { security_first: true, security_flags: 0x0080, ..plain() }
}

/// The input made of a SecurityHeader, if any, and a MessagePropertiesHeader with these numbers and parts.
struct Input(Vec<u8>);

impl Input {
    /// A SecurityHeader's fixed bytes; its parts follow.
    fn security(flags: u16, sizes: [u16; 3], certificate: u32, provider: u32, parts: &[u8]) -> Self {
        let mut bytes = flags.to_le_bytes().to_vec();
        bytes.extend(sizes.iter().flat_map(|size| size.to_le_bytes()));
        bytes.extend_from_slice(&certificate.to_le_bytes());
        bytes.extend_from_slice(&provider.to_le_bytes());
        bytes.extend_from_slice(parts);
        Self(bytes)
    }

    /// The same with a MessagePropertiesHeader and its parts behind it.
    fn properties(mut self, label: u8, class: u16, extension: u32, body: u32, parts: &[u8]) -> Self {
        let mut fixed = [0; 56];
        fixed[1] = label;
        fixed[2..4].copy_from_slice(&class.to_le_bytes());
        fixed[32..36].copy_from_slice(&body.to_le_bytes());
        fixed[36..40].copy_from_slice(&body.to_le_bytes());
        fixed[52..56].copy_from_slice(&extension.to_le_bytes());
        self.0.extend_from_slice(&fixed);
        self.0.extend_from_slice(parts);
        self
    }

    fn plain(label: u8, class: u16, extension: u32, body: u32, parts: &[u8]) -> Self {
        Self(Vec::new()).properties(label, class, extension, body, parts)
    }
}

fn refused<T>(number: u32, place: usize) -> Answer<T> {
    Err(Refusal { number, place })
}

fn part(start: usize, end: usize) -> Part {
    Part { start, length: end - start }
}

/// `units - 1` letters and a null.
fn label(units: usize) -> Vec<u8> {
    [[b'a', 0].repeat(units - 1), vec![0, 0]].concat()
}

/// The section's length, or the refusal, is `wanted`, and so is that of its support copy.
fn reads(side: &dyn Side, input: &[u8], security_first: bool, wanted: Answer<usize>) -> Check {
    let length = side.read(input, security_first).map(|reading| reading.summary.length);
    agree("the section's length", &length, &wanted)?;
    let copy = lend(input.len(), |out| side.support_copy(input, security_first, out));
    agree("the copy's length", &copy.answer, &wanted)?;
    copy.rest_stays()
}

/// The values are written with this length and read back, or refused so.
fn writes(side: &dyn Side, values: &SectionValues<'_>, wanted: Answer<usize>) -> Check {
    let written = lend(LIMIT + 4, |out| side.write_section(values, out));
    agree("the written section's length", &written.answer, &wanted)?;
    if wanted.is_ok() {
        let label = side.read(written.bytes(), values.security_first).map(|reading| reading.summary.label);
        agree("the label read back", &label, &Ok(values.label))?;
    }
    written.rest_stays()
}

fn zero_bytes(side: &dyn Side) -> Check {
    reads(side, &[0; 56], false, Ok(56))?;
    reads(side, &[0; 55], false, refused(1, 0))?;
    writes(side, &plain(), Ok(56))
}

fn parts_in_a_row(side: &dyn Side) -> Check {
    let Input(bytes) = Input::plain(3, 0, 5, 2, b"a\0b\0\0\0extenbo???");
    reads(side, &bytes, false, Ok(72))?;
    for cut in [56, 69, 70, 71] {
        reads(side, &bytes[..cut], false, refused(1, 0))?;
    }
    let parts = side.summarize(&bytes, false).map(|summary| summary.parts);
    let parts = parts.map(|parts| [parts.label, parts.extension, parts.body]);
    agree("the parts", &parts, &Ok([part(56, 62), part(62, 67), part(67, 69)]))?;
    let values = SectionValues { label: b"a\0b\0\0\0", extension: b"exten", body: b"bo", ..plain() };
    writes(side, &SectionValues { allocation_body_size: 2, ..values }, Ok(72))
}

fn longest_label(side: &dyn Side) -> Check {
    reads(side, &Input::plain(250, 0, 0, 0, &label(250)).0, false, Ok(556))?;
    writes(side, &SectionValues { label: &label(250), ..plain() }, Ok(556))?;
    for message_class in [0, 0x8008] {
        reads(side, &Input::plain(251, message_class, 0, 0, &label(251)).0, false, refused(9, 1))?;
        let label = &label(251);
        writes(side, &SectionValues { label, message_class, ..plain() }, refused(9, 1))?;
    }
    Ok(())
}

fn label_of_one_unit(side: &dyn Side) -> Check {
    let Input(bytes) = Input::plain(1, 0, 0, 0, &[0; 4]);
    reads(side, &bytes, false, Ok(60))?;
    agree("the label shown", side.label_shown(&bytes, false, b"none"), &[0, 0][..])?;
    writes(side, &SectionValues { label: &[0, 0], ..plain() }, Ok(60))
}

fn classes(side: &dyn Side) -> Check {
    for (message_class, wanted) in [(0x8008, refused(10, 2)), (0x8009, Ok(56))] {
        reads(side, &Input::plain(0, message_class, 0, 0, &[]).0, false, wanted)?;
        writes(side, &SectionValues { message_class, ..plain() }, wanted)?;
    }
    Ok(())
}

/// Both lines, with the whole input and with 56 bytes of it.
fn at_the_limit(side: &dyn Side) -> Check {
    let body = vec![0xAB; LIMIT];
    for (size, whole, cut) in
        [(4_194_248, Ok(LIMIT), refused(1, 0)), (4_194_249, refused(8, 0), refused(8, 0))]
    {
        let Input(bytes) = Input::plain(0, 0, 0, size as u32, &body);
        reads(side, &bytes, false, whole)?;
        reads(side, &bytes[..56], false, cut)?;
        let values = SectionValues { body: &body[..size], allocation_body_size: size as u64, ..plain() };
        writes(side, &values, whole)?;
    }
    let Input(bytes) = Input::plain(0, 0, 0, 4_194_248, &body[..4_194_248]);
    reads(side, &bytes, false, Ok(LIMIT))?;
    reads(side, &bytes[..LIMIT - 1], false, refused(1, 0))
}

fn key_and_certificate(side: &dyn Side) -> Check {
    let Input(bytes) = Input::security(0x0080, [0, 1, 0], 2, 0, b"k???ce??").properties(0, 0, 0, 0, &[]);
    reads(side, &bytes, true, Ok(24 + 56))?;
    let parts = side.summarize(&bytes, true).map(|summary| summary.parts);
    agree(
        "the parts",
        &parts.map(|parts| [parts.key, parts.certificate]),
        &Ok([part(16, 17), part(20, 22)]),
    )?;
    reads(side, &bytes[..23], true, refused(1, 0))?;
    reads(side, &bytes[..24], true, refused(1, 24))?;
    writes(side, &SectionValues { encryption_key: b"k", sender_cert: b"ce", ..secured() }, Ok(24 + 56))
}

fn identity_and_signature(side: &dyn Side) -> Check {
    for (security_flags, wanted) in [(0x00C2, Ok(40 + 56)), (0x0042, refused(4, 0))] {
        let header = Input::security(security_flags, [16, 0, 5], 0, 0, b"sixteen of thesesigne???");
        let Input(bytes) = header.properties(0, 0, 0, 0, &[]);
        reads(side, &bytes, true, wanted)?;
        let parts = side.summarize(&bytes, true).map(|summary| summary.parts.signature);
        agree("the signature", &parts, &wanted.map(|_| part(32, 37)))?;
        let sender_id = b"sixteen of these";
        let values = SectionValues { security_flags, sender_id, signature: b"signe", ..secured() };
        writes(side, &values, wanted)?;
    }
    Ok(())
}

fn provider_info(side: &dyn Side) -> Check {
    for (info, wanted) in [(&b"\x01\0\0\0x\0\0\0"[..], Ok(28 + 56)), (b"\x01\0\0\0\0\0", refused(7, 0))] {
        let padding = &b"??"[..info.len() % 4]; // none for 8 bytes, two for 6
        let parts = [b"sign", info, padding].concat();
        let header = Input::security(0x0080, [0, 0, 4], 0, info.len() as u32, &parts);
        let Input(bytes) = header.properties(0, 0, 0, 0, &[]);
        reads(side, &bytes, true, wanted)?;
        let part_read = side.summarize(&bytes, true).map(|summary| summary.parts.provider);
        agree("the provider info", &part_read, &wanted.map(|_| part(20, 28)))?;
        writes(side, &SectionValues { signature: b"sign", provider_info: info, ..secured() }, wanted)?;
    }
    Ok(())
}

fn queue_pairs(side: &dyn Side) -> Check {
    let pairs = [(4, 0x81), (5, 0x84), (8, 0x05), (4, 0x00), (3, 0x05), (1, 0x82)];
    for (i, (kind, byte)) in pairs.into_iter().enumerate() {
        let (fixed, text): (&[u8], &[u8]) =
            if matches!(kind, 3 | 8) { (&[], b"q\0\0\0") } else { (&[9; 16], &[]) };
        let image = [&[kind, byte, 0, 0], fixed, text].concat();
        let wanted = if i < 3 { Ok(&image[..]) } else { refused(31, 0) };
        let read = side.read_image(&image).map(|image| (image.kind, image.suffix_and_flags));
        agree("the image", &read, &wanted.map(|_| (kind, byte)))?;
        lend(30, |out| side.write_image([kind, byte], fixed, text, out)).is("the image written", &wanted)?;
    }
    Ok(())
}

fn titles(side: &dyn Side) -> Check {
    for (units, label_length) in [(249, 250), (250, 250), (248, 249), (0, 0)] {
        let title = vec![0x61; units];
        let request = Request { title: &title, ..Request::default() };
        let kept = side.defaulted(&request).map(|properties| properties.title.len());
        agree("the title as cut", &kept, &Ok(units.min(249)))?;
        let sent = lend(600, |out| side.send(&request, out).map(|sent| sent.length));
        let read = side.summarize(sent.bytes(), false).map(|summary| summary.label_length);
        agree("LabelLength", &read, &Ok(label_length))?;
    }
    Ok(())
}

fn listing(side: &dyn Side) -> Check {
    let Input(mut first) = Input::plain(0, 0, 1, 3, b"ebod");
    let mut file = b"\x57\x52\0\0\x3C\0\0\0".to_vec();
    file.append(&mut first);
    file.extend_from_slice(b"\x57\x52\0\0\x01\0\0\0\x09");
    let listed = side.list(&file, Source::Pipe).map(|lines| String::from_utf8_lossy(&lines).into_owned());
    let wanted = "no answer class label ext body total\n0 ok 0 0 1 3 60\n1 refused 1 0\nend 2\n";
    agree("the listing", &listed.map_err(|error| error.to_string()), &Ok(wanted.into()))
}

/// Level 5 with RC4, beside AES 256 and level 0; without EB none of them fails.
fn level_and_algorithm(side: &dyn Side) -> Check {
    for (level, algorithm, fails) in [(5, 0x6801_u32, true), (5, 0x6610, false), (0, 0x6801, true)] {
        for (security_flags, wanted) in [(0x00A0, fails), (0x0080, false)] {
            let header = Input::security(security_flags, [0, 4, 0], 0, 0, b"akey");
            let Input(mut bytes) = header.properties(0, 0, 0, 0, &[]);
            bytes[20 + 40] = level;
            bytes[20 + 48..20 + 52].copy_from_slice(&algorithm.to_le_bytes());
            reads(side, &bytes, true, Ok(20 + 56))?;
            let found = side.summarize(&bytes, true).map(|summary| summary.decryption_fails);
            agree("decryption fails", &found, &Ok(wanted))?;
        }
    }
    Ok(())
}

/// The files of the settled readings: two whole records and a bad third; 256 records and 257; none, and a bad first
/// one, in no slot; a record of length 0, a refused section and one shorter than its record, then a byte behind them.
fn day(side: &dyn Side) -> Check {
    let record = |section: &[u8]| [b"\x57\x52\0\0", &(section.len() as u32).to_le_bytes(), section].concat();
    let classed = |class| record(&Input::plain(0, class, 0, 0, &[]).0);
    let accepted = |class| Ok(Line { class, label: 0, extension: 0, body: 0, total: 56 });
    let reads = |file: &[u8], slots, answer, answers: &[Answer<Line>]| {
        days::read(side, file, slots).is(&Day::new(answer, answers, slots))
    };
    let three = [classed(1), classed(2), b"\x57\x52\x02".to_vec()].concat();
    for slots in [2, 3, 300] {
        reads(&three, slots, refused(15, 2), &[accepted(1), accepted(2)])?;
    }
    reads(&three, 1, refused(16, 0), &[])?;
    let most = classed(1).repeat(256);
    for slots in [256, 257] {
        reads(&most, slots, Ok(256), &[accepted(1); 256])?;
        reads(&classed(1).repeat(257), slots, refused(16, 0), &[])?;
    }
    reads(&most, 255, refused(16, 0), &[])?;
    reads(&[], 0, Ok(0), &[])?;
    reads(b"\x57", 0, refused(15, 0), &[])?;
    let mixed = [record(&[]), classed(3), record(&[0; 60])].concat();
    let answers = [refused(1, 0), refused(10, 2), accepted(0)];
    reads(&mixed, 3, Ok(3), &answers)?;
    reads(&[&mixed[..], b"?"].concat(), 4, refused(15, 3), &answers)
}

/// The fields that fail, each of the text's units, and what their places are called.
fn places(side: &dyn Side) -> Check {
    let named = |input: &[u8], number, place, field, offset| {
        let refusal = Refusal { number, place };
        reads(side, input, true, Err(refusal))?;
        agree("the field", &side.field_of(input, true, refusal), &FieldAt { field, offset })
    };
    for (flags, sizes, certificate, provider, number, place, field) in [
        (0x0083, [0, 4, 0], 0, 0, 2, 0, 1),
        (0x0180, [0, 4, 0], 0, 0, 3, 0, 1),
        (0x0000, [0, 0, 0], 0, 0, 4, 0, 1),
        (0x0080, [0, 0, 0], 0, 0, 4, 2, 2),
        (0x0080, [0, 4, 0], 65_536, 0, 5, 8, 5),
        (0x0081, [7, 4, 0], 0, 0, 6, 2, 2),
        (0x0081, [8, 0, 0], 0, 0, 6, 2, 2), // by S10
        (0x00C0, [0, 4, 0], 0, 6, 7, 0, 34),
    ] {
        let header = Input::security(flags, sizes, certificate, provider, b"not a SID");
        named(&[&header.0[..], &[0; 99]].concat(), number, place, field, 0)?;
    }
    for (name, unit) in [(b"\0\0b\0\0\0", 0), (b"a\0\0\0\0\0", 2), (b"a\0b\0c\0", 4)] {
        let provider_info = &[b"type", &name[..]].concat()[..];
        let header = Input::security(0x0080, [0, 4, 0], 0, 10, &[b"akey", provider_info, b"??"].concat());
        named(&header.properties(0, 0, 0, 0, &[]).0, 7, 24 + unit, 16, unit)?;
        let values = SectionValues { encryption_key: b"akey", ..secured() };
        writes(side, &SectionValues { provider_info, ..values }, refused(7, 24 + unit))?;
        let keyed = Input::security(0x0080, [0, 4, 0], 0, 0, b"akey");
        named(&keyed.properties(3, 0, 0, 0, &[&name[..], b"??"].concat()).0, 12, 76 + unit, 30, unit)?;
        writes(side, &SectionValues { label: name, ..values }, refused(12, 76 + unit))?;
        writes(side, &SectionValues { label: &name[..5], ..values }, refused(9, 20 + 1))?;
        writes(side, &SectionValues { body: name, ..values }, refused(11, 20 + 36))?;
    }
    Ok(())
}

/// The properties of a request have its times, the section that is sent does not.
fn times(side: &dyn Side) -> Check {
    for (queue, live, wanted) in [(0, 0, (0xFFFFFFFF, 0)), (1, 2, (1, 2)), (0xFFFFFFFF, 0, (0xFFFFFFFF, 0))] {
        let request = Request { time_to_queue: queue, time_to_live: live, ..Request::default() };
        let handling = side.defaulted(&request).map(|properties| properties.handling);
        let found = handling.map(|known| known.map(|known| (known.time_to_queue, known.time_to_live)));
        agree("the times", &found, &Ok(Some(wanted)))?;
        let sent = lend(56, |out| side.send(&request, out).map(|sent| sent.length));
        sent.is("the section sent", &Ok(&[0; 56]))?;
    }
    Ok(())
}

/// What is known of a section with a null for its label, at each level; and of one with provider info and EB.
fn properties(side: &dyn Side) -> Check {
    let levels = [(0, Privacy::Request(0)), (1, Privacy::Request(1)), (3, Privacy::Request(2))];
    for (level, privacy) in
        levels.into_iter().chain([2, 4, 5].map(|level| (level, Privacy::Packet(level.into()))))
    {
        let Input(mut bytes) = Input::plain(1, 0, 0, 0, &[0; 4]);
        bytes[40] = level;
        let found = side.properties(&bytes, false);
        let known = found.as_ref().map(|found| (found.handling, found.sender, found.provider_type));
        agree("what no such section carries", &known, &Ok((None, None, None)))?;
        let carried = found.as_ref().map(|found| (found.privacy_level, found.title_length));
        agree("privacy and title", &carried, &Ok((privacy, 0)))?;
    }
    let header = Input::security(0x00A0, [0, 0, 0], 0, 8, b"type\x61\0\0\0");
    let Input(bytes) = header.properties(2, 0, 0, 0, b"a\0\0\0");
    let found = side.properties(&bytes, true);
    let known = found.as_ref().map(|found| (found.handling, found.sender, found.provider_type));
    let sender = Sender { kind: 0, default_provider: false, encryption: true };
    agree("what is known", &known, &Ok((None, Some(sender), Some(u32::from_le_bytes(*b"type")))))?;
    agree("the title", &found.as_ref().map(|found| &found.title[..]), &Ok(&[0x61][..]))
}

/// Privacy 1, and MD5 beside a signature: written and read, but not sent. Privacy 2, SHA-1, and MD5 without a signature
/// are sent as they are written.
fn retired(side: &dyn Side) -> Check {
    for (privacy, privacy_level, hash, signature, retired) in [
        (1, 1, 0, &b""[..], true),
        (2, 3, 0, b"", false),
        (0, 0, 0x8003, b"sign", true),
        (0, 0, 0x8004, b"sign", false),
        (0, 0, 0x8003, b"", false),
    ] {
        let security_first = !signature.is_empty();
        let values = SectionValues { security_first, security_flags: 0x00C0, signature, ..plain() };
        let values = SectionValues { privacy_level, hash_algorithm: hash, ..values };
        let written = lend(100, |out| side.write_section(&values, out));
        let found = side.summarize(written.bytes(), security_first).map(|summary| summary.retired);
        agree("retired", &found, &Ok(retired))?;
        let request = Request {
            privacy_level: Some(privacy),
            encryption_algorithm: Some(0),
            hash_algorithm: Some(hash),
            provider_type: Some(1),
            signature,
            default_provider: true,
            ..Request::default()
        };
        let sent = lend(100, |out| side.send(&request, out).map(|sent| sent.length));
        sent.is("the section sent", &if retired { refused(29, 0) } else { Ok(written.bytes()) })?;
    }
    Ok(())
}

/// The section of example 2 with private bits set: its copy, with each of them kept, longer, shorter, and where the
/// section is refused; then a refusal that stays whatever they are.
fn proposed(side: &dyn Side) -> Check {
    let Input(copy) = Input::plain(3, 0, 5, 2, b"a\0b\0\0\0\0\0\0\0\0\0\0\0\0\0");
    let mut section = copy.clone();
    section[0] = 0xF0;
    section[4..24].fill(b'c');
    section[28..32].fill(b't');
    section[62..].copy_from_slice(b"extenbo???");
    let says = |what, input: &[u8], copy: &[u8], wanted| {
        agree(what, &side.is_support_copy(input, false, copy), &wanted)
    };
    says("the copy", &section, &copy, true)?;
    says("the copy, with bytes behind the section", &[&section[..], b"more"].concat(), &copy, true)?;
    for at in [0..1, 4..24, 28..32, 62..67, 67..69, 68..69, 69..72] {
        let mut kept = copy.clone();
        kept[at.clone()].copy_from_slice(&section[at]);
        says("a copy that keeps private bits", &section, &kept, false)?;
    }
    says("a copy with bytes behind it", &section, &[&copy[..], &[0; 4]].concat(), false)?;
    says("a copy that is cut", &section, &copy[..71], false)?;
    let unlisted = |mut section: Vec<u8>| {
        section[3] = 0x10;
        section
    };
    says("the copy of a refused section", &unlisted(section.clone()), &unlisted(copy.clone()), false)?;
    reads(side, &unlisted(section), false, refused(10, 2))?;
    reads(side, &unlisted(copy), false, refused(10, 2))
}
