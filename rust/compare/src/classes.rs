//! Every class of 16 bits, read, written and sent: both sides, and 01's list number by number.

use independent::generate::Random;
use independent::number;

use crate::lend::lend;
use crate::report::{agree, Check, Tally};
use crate::sections;
use crate::side::{Answer, Refusal, Request, SectionValues, Side, Sides};

/// The bytes of a section without any part.
const PLAIN: usize = 56;
/// Where MessageClass stands in it.
const CLASS: usize = 2;
/// 01, "Classes (000)".
const LISTED: [u16; 19] = [
    0x0000, 0x0001, 0x0002, 0x4000, 0x8000, 0x8001, 0x8002, 0x8003, 0x8004, 0x8005, 0x8006, 0x8007, 0x8009,
    0x800A, 0x800B, 0xC000, 0xC001, 0xC002, 0xC004,
];
/// A class that 01 does not list: in a section it is MessageClass that fails (C-17), a request has no place.
const UNLISTED: Refusal = Refusal { number: number::CLASS, place: CLASS };
const NOT_SENT: Refusal = Refusal { place: 0, ..UNLISTED };

/// Compares both sides at every class.
pub fn run(sides: Sides<'_>, r: &mut Random) -> Tally {
    let mut tally = Tally::new("classes");
    for class in 0..=u16::MAX {
        let mut section = [0; PLAIN];
        section[CLASS..CLASS + 2].copy_from_slice(&class.to_le_bytes());
        let answer = sides.one.summarize(&section, false).map(|summary| summary.length);
        let check = compare(sides, class, &section, &answer, r);
        tally.add(&answer, check, || format!("class {class:#06x}"));
    }
    tally
}

fn compare(sides: Sides<'_>, class: u16, section: &[u8], read: &Answer<usize>, r: &mut Random) -> Check {
    let wanted = if LISTED.contains(&class) { Ok(section) } else { Err(UNLISTED) };
    agree("the class read", read, &wanted.map(<[u8]>::len))?;
    sections::compare(sides, section, false, r)?;
    let values = SectionValues { message_class: class, ..SectionValues::default() };
    let written =
        sides.both("the class written", |side| lend(PLAIN, |out| side.write_section(&values, out)))?;
    written.is("the class written", &wanted)?;
    let wanted = wanted.map_err(|_| NOT_SENT);
    for (class, wanted) in [(u32::from(class), wanted), (0x1_0000 + u32::from(class), Err(NOT_SENT))] {
        let request = Request { class: Some(class), ..Request::default() };
        let sent = |side: &dyn Side| lend(PLAIN, |out| side.send(&request, out).map(|sent| sent.length));
        sides.both("the class sent", sent)?.is("the class sent", &wanted)?;
    }
    Ok(())
}
