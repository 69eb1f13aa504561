//! C-12's settled readings, sentence by sentence.

use super::{part, refused, Input};
use crate::portions::AFTER;
use crate::report::{agree, require, Check};
use crate::side::{Answer, Call, Portions, Side};

/// Where parts of the section stand, and where it ends.
const SID: usize = 16;
const TYPE: usize = 28;
const NAME: usize = TYPE + 4;
const PROPERTIES: usize = 40;
const LABEL: usize = PROPERTIES + 56;
const END: usize = 112;

/// A section with an identity without sub-authorities, a signature, and a name and a label of three units each; its
/// level is 5, with RC4 and MD5.
fn section() -> Vec<u8> {
    let parts = b"\x01\0SIDSIDsigntypea\0b\0\0\0??";
    let header = Input::security(0x00A1, [8, 0, 4], 0, 10, parts);
    let Input(mut bytes) = header.properties(3, 0, 5, 2, b"x\0y\0\0\0extenbo???");
    bytes[PROPERTIES + 40] = 5;
    bytes[PROPERTIES + 44..][..8].copy_from_slice(b"\x03\x80\0\0\x01\x68\0\0");
    bytes
}

/// The section with these bytes changed and with this length, read in portions of any size, each with an empty one
/// behind it: "a portion's only refusal is 14", and the finish gives `wanted`.
fn reads(side: &dyn Side, changes: &[(usize, u8)], length: usize, wanted: Answer<usize>) -> Check {
    let mut input = section();
    changes.iter().for_each(|&(at, byte)| input[at] = byte);
    input.resize(length, b'?');
    for size in (1..40).chain([length]) {
        let mut state = side.portions(true);
        for bytes in input.chunks(size) {
            agree("a portion", &state.portion(bytes), &Ok(()))?;
            agree("an empty portion", &state.portion(&[]), &Ok(()))?;
        }
        agree("the finish", &state.finish().map(|summary| summary.length), &wanted)?;
        agree("a finish after it", &state.finish().map(|_| ()), &Err(AFTER))?;
    }
    Ok(())
}

/// "Empty portions are fine before the finish, 14 after it. No portion at all is the empty input." "A portion or a
/// second finish after the finish is refused with 14", also where the finish was refused.
pub fn calls(side: &dyn Side) -> Check {
    for security_first in [false, true] {
        let mut nothing = side.portions(security_first);
        agree("no portion at all", &nothing.finish().map(|_| ()), &refused(1, 0))?;
        let mut empty = side.portions(security_first);
        agree("an empty portion", &empty.portion(&[]), &Ok(()))?;
        agree("nothing but an empty portion", &empty.finish().map(|_| ()), &refused(1, 0))?;
        is_after(&mut *nothing)?;
        is_after(&mut *empty)?;
    }
    let mut whole = side.portions(true);
    agree("the whole section", &whole.portion(&section()), &Ok(()))?;
    agree("the finish", &whole.finish().map(|summary| summary.length), &Ok(END))?;
    is_after(&mut *whole)
}

/// What comes after the finish "is refused with 14 and changes nothing".
fn is_after(state: &mut dyn Portions) -> Check {
    for call in [Call::Portion(&[][..]), Call::Portion(&section()), Call::Finish, Call::Finish] {
        require("a call after the finish changes nothing", state.stays(call))?;
        agree("a call after the finish", &state.call(call), &Err(AFTER))?;
    }
    Ok(())
}

/// "The order of one-go reading holds: a bad identity, name or label that already passed counts only when its header or
/// section came whole, else 1. 6 comes before 7." "The place of the name's first bad unit (C-17) is kept in the state;
/// a portion may split a unit." "Bytes behind the section are fed and not read, in any number."
pub fn refusals(side: &dyn Side) -> Check {
    let (identity, name, label) = ((SID, 2), (NAME + 2, 0), (LABEL, 0));
    reads(side, &[(PROPERTIES + 2, 3)], END, refused(10, PROPERTIES + 2))?;
    for (changes, number, place, came) in [
        (&[identity][..], 6, 2, PROPERTIES),
        (&[name], 7, NAME + 2, PROPERTIES),
        (&[identity, name], 6, 2, PROPERTIES),
        (&[(NAME + 5, 1)], 7, NAME + 4, PROPERTIES),
        (&[(NAME + 4, 1), (NAME + 5, 1)], 7, NAME + 4, PROPERTIES),
        (&[label], 12, LABEL, END),
        (&[(LABEL + 5, 1)], 12, LABEL + 4, END),
    ] {
        reads(side, changes, came - 1, refused(1, if came == END { PROPERTIES } else { 0 }))?;
        reads(side, changes, came, refused(number, place))?;
        reads(side, changes, END + 50, refused(number, place))?;
    }
    reads(side, &[label, (PROPERTIES + 36, 1)], END, refused(11, PROPERTIES + 36))?;
    reads(side, &[label, (PROPERTIES + 55, 1)], END, refused(8, PROPERTIES))?;
    for behind in [0, 1, 50, 65_536 - 50, 70_000] {
        reads(side, &[], END + behind, Ok(END))?;
    }
    Ok(())
}

/// "The summary lacks the provider name's content only: type, start, length, ProviderInfoSize, verdicts and retired
/// stay." The label is there by its content.
pub fn summary(side: &dyn Side) -> Check {
    for size in 1..=END {
        let mut state = side.portions(true);
        for bytes in section().chunks(size) {
            agree("a portion", &state.portion(bytes), &Ok(()))?;
        }
        let found = state.finish();
        let parts = found.map(|summary| [summary.parts.provider, summary.parts.label, summary.parts.body]);
        agree("the parts", &parts, &Ok([part(TYPE, 38), part(LABEL, 102), part(107, 109)]))?;
        let provider = found.map(|summary| {
            summary.security.map(|header| (header.provider_type, header.sizes[4], header.provider_name))
        });
        let kind = u32::from_le_bytes(*b"type");
        agree("the provider", &provider, &Ok(Some((Some(kind), 10, &[][..]))))?;
        let verdicts =
            found.map(|summary| [summary.authentication_fails, summary.decryption_fails, summary.retired]);
        agree("the verdicts", &verdicts, &Ok([false, true, true]))?;
        agree("the label", &found.map(|summary| summary.label), &Ok(b"x\0y\0\0\0"))?;
    }
    Ok(())
}
