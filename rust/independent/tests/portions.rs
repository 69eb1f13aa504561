//! C-12: sections in portions. The settled readings, every way to cut several sections in three, generated
//! calls against one-go reading, and the wrong versions that they tell from the right one.

use std::mem::size_of;

use independent::generate::{portions_case, Call, PortionsCase, Random};
use independent::planted::{self, WrongPortions};
use independent::portions::Portions;
use independent::{number, read, Refusal, Summary};

const AFTER: Refusal = Refusal { number: number::AFTER_THE_FINISH, place: 0 };

/// What one-go reading says of `input`, without the provider name.
fn in_one_go(input: &[u8], security_first: bool) -> Result<Summary<'_>, Refusal> {
    read(input, security_first).map(|section| section.summary.without_provider_name())
}

/// The state after these portions.
fn after<'p>(portions: impl IntoIterator<Item = &'p [u8]>, security_first: bool) -> Portions {
    let mut state = Portions::new(security_first);
    for bytes in portions {
        assert_eq!(state.portion(bytes), Ok(()), "a portion's only refusal is 14");
    }
    state
}

/// Reads `input` in portions of `size` bytes; it gives what one-go reading gives.
fn in_portions_of(size: usize, input: &[u8], security_first: bool) {
    let mut state = after(input.chunks(size), security_first);
    assert_eq!(state.finish(), in_one_go(input, security_first), "{size} bytes at a time, {input:02x?}");
}

/// A section with every part: identity at 16, provider type at 60, name at 64, label at 128. Its level is 5,
/// with RC4 and MD5.
fn whole() -> Vec<u8> {
    let sizes = b"\xA1\0\x0C\0\x05\0\x0B\0\x0B\0\0\0\x0A\0\0\0";
    let sid = b"\x01\x01\0\0\0\0\0\x05\x12\0\0\0";
    let parts = [&sid[..], b"a key???a signature?certificate?", b"\x01\0\x02\0p\0\0q\0\0??"];
    let mut fixed = [0; 56];
    (fixed[1], fixed[3], fixed[32], fixed[36], fixed[40], fixed[52]) = (5, 0x40, 2, 2, 5, 5);
    fixed[44..52].copy_from_slice(b"\x03\x80\0\0\x01\x68\0\0");
    [&sizes[..], &parts.concat(), &fixed, b"w\0i\0r\0\0e\0\0firstse???"].concat()
}

/// Where parts of [`whole`] stand.
const SID: usize = 16;
const NAME: usize = 64;
const PROPERTIES: usize = 72;
const LABEL: usize = PROPERTIES + 56;

/// [`whole`] with one byte changed.
fn with(at: usize, byte: u8) -> Vec<u8> {
    let mut section = whole();
    section[at] = byte;
    section
}

#[test]
fn the_parts_stand_where_they_are_said_to() {
    let section = whole();
    let parts = read(&section, true).unwrap().summary.parts;
    let starts = [parts.identity.start, parts.provider.start, parts.label.start];
    assert_eq!(starts, [SID, NAME - 4, LABEL]);
    assert_eq!(section.len(), 148);
}

/// Sections that are accepted, and ones that break a step: one of each content, two together, and each of
/// them cut before its end.
fn sections() -> Vec<(Vec<u8>, bool)> {
    let mut both = whole();
    (both[SID], both[NAME]) = (2, 0);
    let mut plain = [0; 56];
    plain[1] = 1;
    let mut sections = vec![
        (whole(), true),
        (with(SID + 1, 2), true),
        (with(NAME, 0), true),
        (with(NAME + 5, 1), true),
        (with(LABEL + 2, 0), true),
        (with(PROPERTIES + 2, 3), true),
        (both, true),
        ([&plain[..], &[0; 4]].concat(), false),
        (whole(), false),
    ];
    let cut = |(section, first): &(Vec<u8>, bool)| (section[..section.len() - 1].to_vec(), *first);
    sections.extend(sections.iter().map(cut).collect::<Vec<_>>());
    sections.push((with(SID, 2)[..PROPERTIES - 1].to_vec(), true));
    sections.push((with(NAME, 0)[..PROPERTIES - 1].to_vec(), true));
    sections
}

#[test]
fn byte_by_byte_and_a_few_at_a_time() {
    for (section, first) in sections() {
        for size in 1..=section.len() {
            in_portions_of(size, &section, first);
        }
    }
}

/// The answer and the state, whatever the two places where the portions end.
#[test]
fn every_two_cuts() {
    for (section, first) in sections() {
        let mut whole = after([&section[..]], first);
        let state = whole.clone();
        let answer = whole.finish();
        assert_eq!(answer, in_one_go(&section, first));
        for end in 0..=section.len() {
            for start in 0..=end {
                let cut = [&section[..start], &section[start..end], &section[end..]];
                let mut cut = after(cut, first);
                assert_eq!(cut, state, "the state does not tell where the portions ended");
                assert_eq!(cut.finish(), answer, "cut at {start} and {end}");
            }
        }
    }
}

/// A section that is cut anywhere, fed byte by byte: the steps that it came to, and nothing that came later.
#[test]
fn every_cut_end() {
    for (section, first) in sections() {
        for end in 0..section.len() {
            in_portions_of(1, &section[..end], first);
        }
    }
}

/// "Empty portions are fine before the finish, 14 after it. No portion at all is the empty input."
#[test]
fn empty_portions_and_none() {
    for first in [false, true] {
        let short = Err(Refusal { number: number::INPUT_SHORT, place: 0 });
        assert_eq!(Portions::new(first).finish(), short);
        let mut state = after([&[][..], &[]], first);
        assert_eq!(state, Portions::new(first));
        assert_eq!(state.finish(), short);
        assert_eq!(state.portion(&[]), Err(AFTER));
    }
    let section = whole();
    let with_empty = section.chunks(1).flat_map(|byte| [&[][..], byte, &[]]);
    assert_eq!(after(with_empty, true).finish(), in_one_go(&section, true));
}

/// "A portion or a second finish after the finish is refused with 14 and changes nothing"; so it is after a
/// refused finish, which "is still the finish".
#[test]
fn after_the_finish() {
    for (section, first) in sections() {
        let mut state = after([&section[..]], first);
        assert_eq!(state.finish(), in_one_go(&section, first));
        let finished = state.clone();
        for portion in [&[][..], b"more", &section] {
            assert_eq!(state.portion(portion), Err(AFTER));
            assert_eq!(state.finish(), Err(AFTER));
            assert_eq!(state, finished);
        }
    }
}

/// Hands `behind` bytes to `portion`, very many at a time.
fn feed(behind: usize, mut portion: impl FnMut(&[u8]) -> Result<(), Refusal>) {
    let many = vec![0; 1 << 26];
    for at in (0..behind).step_by(many.len()) {
        assert_eq!(portion(&many[..many.len().min(behind - at)]), Ok(()));
    }
}

/// More bytes behind a section than 16, 32 and 33 bits count: what is left of the count would be too few.
const BEHIND: [usize; 4] = [1, (1 << 16) - 100, (1 << 32) - 100, (1 << 33) - 100];

/// "Bytes behind the section are fed and not read, in any number; the count must not wrap."
#[test]
fn bytes_behind() {
    let section = whole();
    for behind in BEHIND {
        let mut state = after([&section[..]], true);
        feed(behind, |bytes| state.portion(bytes));
        assert_eq!(state.finish(), in_one_go(&section, true), "{behind}");
    }
    let mut short = after([&section[..section.len() - 1]], true);
    assert_eq!(short.clone().finish(), Err(Refusal { number: number::INPUT_SHORT, place: PROPERTIES }));
    assert_eq!(short.portion(b"?more"), Ok(()));
    assert_eq!(short.finish().map(|summary| summary.length), Ok(section.len()));
}

/// Each number of a section, at its place, from portions of 1, 7 and 148 bytes.
#[test]
fn each_refusal() {
    let mut long = whole();
    long[PROPERTIES + 52 + 3] = 1;
    for (section, number, place) in [
        (whole()[..15].to_vec(), number::INPUT_SHORT, 0),
        (whole()[..PROPERTIES - 1].to_vec(), number::INPUT_SHORT, 0),
        (whole()[..LABEL - 1].to_vec(), number::INPUT_SHORT, PROPERTIES),
        (with(0, 0xA3), number::SENDER_KIND, 0),
        (with(0, 0xB1), number::AUTHENTICATED, 0),
        (with(0, 0x21), number::EMPTY, 0),
        (with(10, 1), number::CERTIFICATE, 8),
        (with(2, 13), number::IDENTITY, 2),
        (with(SID, 2), number::IDENTITY, 2),
        (with(SID + 1, 2), number::IDENTITY, 2),
        (with(12, 9), number::PROVIDER, 0),
        (with(NAME, 0), number::PROVIDER, NAME),
        (with(NAME + 3, 0), number::PROVIDER, NAME + 2),
        (with(NAME + 5, 7), number::PROVIDER, NAME + 4),
        (with(15, 1), number::LIMIT, 0),
        (long, number::LIMIT, PROPERTIES),
        (with(PROPERTIES + 1, 251), number::LABEL_LENGTH, PROPERTIES + 1),
        (with(PROPERTIES + 2, 3), number::CLASS, PROPERTIES + 2),
        (with(PROPERTIES + 36, 1), number::ALLOCATION, PROPERTIES + 36),
        (with(LABEL + 2, 0), number::LABEL, LABEL + 2),
        (with(LABEL + 9, 7), number::LABEL, LABEL + 8),
    ] {
        for size in [1, 7, 148] {
            let mut state = after(section.chunks(size), true);
            assert_eq!(state.finish(), Err(Refusal { number, place }), "{size} bytes at a time");
            assert_eq!(state.finish(), Err(AFTER));
        }
        assert_eq!(read(&section, true).map(|_| ()), Err(Refusal { number, place }));
    }
}

/// "The summary lacks the provider name's content only: type, start, length, ProviderInfoSize, verdicts and
/// retired stay."
#[test]
fn the_summary() {
    let section = whole();
    let mut state = after(section.chunks(1), true);
    let summary = state.finish().unwrap();
    let security = summary.security.unwrap();
    assert_eq!((security.provider_type, security.provider_size), (Some(0x0002_0001), 10));
    assert_eq!((summary.parts.provider.start, summary.parts.provider.length), (NAME - 4, 10));
    assert_eq!((security.provider_name, security.sid), (&[][..], [1, 1]));
    assert_eq!(summary.properties.label, b"w\0i\0r\0\0e\0\0");
    // Level 5 with RC4 (C-14), and MD5 with a signature (C-21).
    assert!(summary.decryption_fails && summary.retired && !summary.authentication_fails);
    // Another name of the same length, and other private bits.
    let mut twin = section.clone();
    (twin[NAME], twin[NAME + 3]) = (b'?', b'!');
    (twin[SID + 2], twin[PROPERTIES + 4], twin[147]) = (0xFF, 0xFF, 0xFF);
    assert_ne!(read(&twin, true).unwrap().summary, read(&section, true).unwrap().summary);
    assert_eq!(after([&twin[..]], true).finish(), Ok(summary));
}

/// "With the label held (500 bytes) .. and only its length kept": nothing grows with the section.
#[test]
fn the_state_is_small() {
    assert!(size_of::<Portions>() < 500 + 16 + 56 + 100, "{} bytes", size_of::<Portions>());
    let label = [[b'a', 0].repeat(249), vec![0, 0]].concat();
    let mut fixed = [0; 56];
    fixed[1] = 250;
    let section = [&fixed[..], &label].concat();
    let mut state = after(section.chunks(3), false);
    assert_eq!(state.finish().unwrap().properties.label, label);
}

/// What the calls give: each portion's answer, each finish's, and whether one that is refused with 14
/// changes the state.
fn answers<S: Clone + PartialEq>(
    case: &PortionsCase,
    mut state: S,
    portion: impl Fn(&mut S, &[u8]) -> Result<(), Refusal>,
    finish: impl Fn(&mut S) -> String,
) -> Vec<String> {
    let mut answers = Vec::new();
    for call in case.calls() {
        let before = state.clone();
        let answer = match call {
            Call::Portion(bytes) => format!("{:?}", portion(&mut state, bytes)),
            Call::Finish => finish(&mut state),
        };
        let changed = answer == format!("{:?}", Err::<(), _>(AFTER)) && state != before;
        answers.push(if changed { format!("{answer}, changed") } else { answer });
    }
    answers
}

fn right(case: &PortionsCase) -> Vec<String> {
    let finish = |state: &mut Portions| format!("{:?}", state.finish());
    answers(case, Portions::new(case.security_first), Portions::portion, finish)
}

/// C-12 once more, by the portions joined.
fn plainly(case: &PortionsCase) -> Vec<String> {
    let (mut joined, mut finished) = (Vec::new(), false);
    let after = format!("{:?}", Err::<(), _>(AFTER));
    let mut answer = |call: Call<&[u8]>| match call {
        _ if finished => after.clone(),
        Call::Portion(bytes) => {
            joined.extend_from_slice(bytes);
            format!("{:?}", Ok::<(), Refusal>(()))
        }
        Call::Finish => {
            finished = true;
            format!("{:?}", in_one_go(&joined, case.security_first))
        }
    };
    case.calls().map(&mut answer).collect()
}

#[test]
fn generated_calls() {
    let mut r = Random::new(61);
    for _ in 0..20_000 {
        let case = portions_case(&mut r);
        assert_eq!(right(&case), plainly(&case));
    }
}

#[test]
fn wrong_versions() {
    let mut r = Random::new(62);
    let cases: Vec<_> = (0..3_000).map(|_| portions_case(&mut r)).collect();
    let right: Vec<_> = cases.iter().map(right).collect();
    for wrong in WrongPortions::all() {
        let found = cases.iter().zip(&right).filter(|(case, right)| {
            let start = planted::Portions::new(wrong, case.security_first);
            let finish = |state: &mut planted::Portions| format!("{:?}", state.finish());
            answers(case, start, planted::Portions::portion, finish) != **right
        });
        let found = found.count();
        println!("{wrong:?}: {found}");
        assert!(found > 0, "{wrong:?}");
    }
}

/// The wrong versions that show only behind very many bytes.
#[test]
fn wrong_versions_of_long_inputs() {
    for wrong in WrongPortions::LONG {
        let mut state = planted::Portions::new(wrong, true);
        assert_eq!(state.portion(&whole()), Ok(()));
        feed(BEHIND[2], |bytes| state.portion(bytes));
        assert!(state.finish().is_err(), "{wrong:?}");
    }
}
