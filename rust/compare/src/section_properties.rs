//! The properties of sections that were read (C-18), made by both sides: what a section carries is known, the rest is
//! not.

use independent::generate::{long_case, properties_case, Case, Random};

use crate::pairs::{near, section, HEADS};
use crate::report::{agree, Difference, Tally, OFTEN};
use crate::requests::PACKET_LEVELS;
use crate::sections::described;
use crate::side::{Answer, Privacy, Properties, Reading, Sender, Sides};

/// What the sections are to meet: each group known and not known, and what may be taken for it; each privacy; each
/// length of a label that is next to another.
type Met = (&'static str, fn(&Properties<'_>, &Reading<'_>) -> bool);
const MET: [Met; 19] = [
    ("times not known", |found, _| found.handling.is_none()),
    ("sender known", |found, _| found.sender.is_some()),
    ("sender not known", |found, _| found.sender.is_none()),
    ("EB without a key", |_, reading| flags(reading) & EB != 0 && key(reading).is_empty()),
    ("a key without EB", |_, reading| flags(reading) & EB == 0 && !key(reading).is_empty()),
    ("provider type known", |found, _| found.provider_type.is_some()),
    ("provider type not known", |found, _| found.provider_type.is_none()),
    ("provider type without a signature", |found, _| {
        found.provider_type.is_some() && found.signature.is_empty()
    }),
    ("privacy 0", |found, _| found.privacy_level == Privacy::Request(0)),
    ("privacy 1", |found, _| found.privacy_level == Privacy::Request(1)),
    ("privacy 2", |found, _| found.privacy_level == Privacy::Request(2)),
    ("a packet's level 2", |found, _| found.privacy_level == Privacy::Packet(2)),
    ("a packet's level 4", |found, _| found.privacy_level == Privacy::Packet(4)),
    ("a packet's level 5", |found, _| found.privacy_level == Privacy::Packet(5)),
    ("a packet's level above 5", |found, _| matches!(found.privacy_level, Privacy::Packet(6..))),
    ("LabelLength 0", |_, reading| reading.summary.label_length == 0),
    ("LabelLength 1", |_, reading| reading.summary.label_length == 1),
    ("LabelLength 2", |_, reading| reading.summary.label_length == 2),
    ("LabelLength 250", |_, reading| reading.summary.label_length == 250),
];
const BEHIND: &str = "bytes behind the section";

/// One case in so many is long in fact.
const LONG: u64 = 2_000;
/// The bits of the SecurityHeader's Flags.
const ST: u16 = 0x000F;
const EB: u16 = 0x0020;
const DE: u16 = 0x0040;

/// Compares generated sections, then one of each level next to a request's behind each head.
pub fn run(sides: Sides<'_>, cases: u64, r: &mut Random) -> Tally {
    let mut tally = Tally::new("properties of sections");
    MET.iter().for_each(|(what, _)| tally.is_to_meet(what, OFTEN));
    tally.is_to_meet(BEHIND, OFTEN);
    for number in 0..cases {
        let case = if number % LONG == LONG - 1 { long_case(r) } else { properties_case(r) };
        let Case { bytes, security_first } = case;
        add(&mut tally, sides, &bytes, security_first);
    }
    for level in near(&PACKET_LEVELS) {
        for (head, _, _) in HEADS {
            add(&mut tally, sides, &section(head, (level, 0), 0), !head.is_empty());
        }
    }
    tally
}

/// Compares the properties of one input and counts it.
fn add(tally: &mut Tally, sides: Sides<'_>, input: &[u8], security_first: bool) {
    let reading = sides.one.read(input, security_first);
    let check = compare(sides, input, security_first, &reading).map(|found| {
        if let (Ok(found), Ok(reading)) = (&found, &reading) {
            MET.iter().for_each(|(what, met)| tally.meet_if(met(found, reading), what));
            tally.meet_if(reading.summary.length < input.len(), BEHIND);
        }
    });
    tally.add(&reading, check, || described(input, security_first));
}

/// The properties by both sides: they are those of the reading, or are refused as it is.
fn compare<'a>(
    sides: Sides<'_>,
    input: &'a [u8],
    security_first: bool,
    reading: &Answer<Reading<'_>>,
) -> Result<Answer<Properties<'a>>, Difference> {
    let what = "the properties of a section";
    let found = sides.both(what, |side| side.properties(input, security_first))?;
    agree(what, &found, &reading.as_ref().map(wanted).map_err(|refusal| *refusal))?;
    Ok(found)
}

/// The properties that a section carries, by 01's sentence.
fn wanted<'a>(reading: &Reading<'a>) -> Properties<'a> {
    let summary = &reading.summary;
    let [_, _, signature, _, _, label, _, _] = reading.parts;
    let title: Vec<_> = label.chunks_exact(2).map(|unit| u16::from_le_bytes([unit[0], unit[1]])).collect();
    let title = title.split_last().map_or(&[][..], |(_, before)| before);
    Properties {
        handling: None,
        sender: summary.security.map(|header| sender(header.flags)),
        provider_type: provider_info(reading).first_chunk().map(|kind| u32::from_le_bytes(*kind)),
        class: summary.message_class.into(),
        acknowledge: summary.flags.into(),
        application_tag: reading.application_tag,
        privacy_level: privacy(summary.privacy_level),
        hash_algorithm: summary.hash_algorithm,
        encryption_algorithm: summary.encryption_algorithm,
        body_type: summary.body_type,
        body_sizes: [summary.message_size, summary.allocation_body_size],
        correlation_id: *reading.correlation_id,
        title: title.to_vec(),
        title_length: title.len(),
        signature,
    }
}

fn sender(flags: u16) -> Sender {
    Sender { kind: (flags & ST).into(), default_provider: flags & DE != 0, encryption: flags & EB != 0 }
}

/// A request's privacy, or the packet's level.
fn privacy(level: u32) -> Privacy {
    let request = PACKET_LEVELS.iter().position(|&mapped| mapped == level);
    request.map_or(Privacy::Packet(level), |request| Privacy::Request(request as u32))
}

fn flags(reading: &Reading<'_>) -> u16 {
    reading.summary.security.map_or(0, |header| header.flags)
}

fn key<'a>(reading: &Reading<'a>) -> &'a [u8] {
    reading.parts[1]
}

fn provider_info<'a>(reading: &Reading<'a>) -> &'a [u8] {
    reading.parts[4]
}
