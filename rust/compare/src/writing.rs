//! Sections written from values by both sides.

use independent::generate::{section_values, OwnedValues, Random};
use independent::neighbours::{self, List};

use crate::lend::{lend, Written};
use crate::report::{agree, values_in_hex, Check, Tally};
use crate::sections::SHORT;
use crate::side::{Reading, SectionValues, Side, Sides};

/// Compares generated values.
pub fn run(sides: Sides<'_>, cases: u64, r: &mut Random) -> Tally {
    let mut tally = Tally::with_neighbours("section values written", List::Writing);
    for _ in 0..cases {
        let values = section_values(r);
        let check = compare(sides, &values);
        let answer = write(sides.one, &values.as_values(), values.room).answer;
        tally.add(&answer, check, || values_in_hex(&values));
        tally.meet_neighbours(neighbours::writing(&values.as_values(), values.room));
    }
    tally
}

/// What a side writes to so many lent bytes.
pub fn write(side: &dyn Side, values: &SectionValues<'_>, room: usize) -> Written {
    lend(room, |out| side.write_section(values, out))
}

/// Writes the values with both sides; what the one wrote has to read back as them.
pub fn compare(sides: Sides<'_>, owned: &OwnedValues) -> Check {
    let values = owned.as_values();
    let written = sides.both("the section", |side| write(side, &values, owned.room))?;
    written.rest_stays()?;
    let length = match written.answer {
        Ok(length) => length,
        Err(SHORT) => owned.length(),
        Err(_) => return Ok(()),
    };
    let exact = sides.both("the section in its own length", |side| write(side, &values, length))?;
    agree("its own length is room enough", &exact.answer, &Ok(length))?;
    let short = sides.both("the section a byte short", |side| write(side, &values, length - 1))?;
    short.is("the section a byte short", &Err(SHORT))?;
    let reading = sides.one.read(&exact.out, values.security_first);
    agree("what is written reads back", &reading.map(|reading| read_values(&reading)), &Ok(plain(&values)))
}

/// The values of a reading.
pub fn read_values<'a>(reading: &Reading<'a>) -> SectionValues<'a> {
    let [sender_id, encryption_key, signature, sender_cert, provider_info, label, extension, body] =
        reading.parts;
    let summary = &reading.summary;
    SectionValues {
        security_first: summary.security.is_some(),
        security_flags: summary.security.map_or(0, |security| security.flags),
        sender_id,
        encryption_key,
        signature,
        sender_cert,
        provider_info,
        flags: summary.flags,
        message_class: summary.message_class,
        correlation_id: *reading.correlation_id,
        body_type: summary.body_type,
        application_tag: reading.application_tag,
        allocation_body_size: summary.allocation_body_size,
        privacy_level: summary.privacy_level,
        hash_algorithm: summary.hash_algorithm,
        encryption_algorithm: summary.encryption_algorithm,
        label,
        extension,
        body,
    }
}

/// The values that a section carries: X bits zero, and nothing of a SecurityHeader that is not there.
fn plain<'a>(values: &SectionValues<'a>) -> SectionValues<'a> {
    let values = SectionValues { flags: values.flags & 0x0F, ..*values };
    if values.security_first {
        return SectionValues { security_flags: values.security_flags & 0x0FFF, ..values };
    }
    SectionValues {
        security_flags: 0,
        sender_id: &[],
        encryption_key: &[],
        signature: &[],
        sender_cert: &[],
        provider_info: &[],
        ..values
    }
}
