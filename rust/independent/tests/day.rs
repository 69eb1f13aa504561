//! C-15: a day's file in a single call. The examples of the settled readings, generated files against C-15
//! written down once more, and the wrong versions that they tell from the right one.

use independent::day::{read_day, DAY_MOST};
use independent::generate::{day_table, DayTable, Random};
use independent::listing::{line, list, next_record, Answer, Line, Next, HEADER};
use independent::planted::{self, WrongDay};
use independent::{number, read, Refusal};

/// An answer that no record has, and that no other slot holds.
fn stood(slot: usize) -> Answer {
    Err(Refusal { number: 1_000 + slot as u32, place: slot })
}

/// What is answered, and what the lent slots hold afterwards.
type Day = (Result<usize, Refusal>, Vec<Answer>);

/// Lends `slots` slots to `read`.
fn lent(slots: usize, read: impl FnOnce(&mut [Answer]) -> Result<usize, Refusal>) -> Day {
    let mut table: Vec<_> = (0..slots).map(stood).collect();
    (read(&mut table), table)
}

/// A day's file read into a table of `slots` slots.
fn day(file: &[u8], slots: usize) -> Day {
    lent(slots, |table| read_day(file, table))
}

/// This answer, with `answers` in the first slots and the others as they were.
fn filled(answer: Result<usize, Refusal>, answers: &[Answer], slots: usize) -> Day {
    (answer, answers.iter().copied().chain((answers.len()..slots).map(stood)).collect())
}

fn bad(record: usize) -> Result<usize, Refusal> {
    Err(Refusal { number: number::BAD_RECORD, place: record })
}

const TOO_MANY: Result<usize, Refusal> = Err(Refusal { number: number::TOO_MANY_RECORDS, place: 0 });

/// A record of these bytes.
fn record(security_first: bool, section: &[u8]) -> Vec<u8> {
    let mut record = vec![0x57, 0x52, security_first.into(), 0];
    record.extend((section.len() as u32).to_le_bytes());
    record.extend(section);
    record
}

/// A section of this class, 56 bytes, and its answer.
fn section(class: u16) -> [u8; 56] {
    let mut section = [0; 56];
    section[2..4].copy_from_slice(&class.to_le_bytes());
    section
}

fn accepted(class: u16) -> Answer {
    Ok(Line { class, label: 0, extension: 0, body: 0, total: 56 })
}

/// So many records, each accepted.
fn records(count: usize) -> Vec<u8> {
    record(false, &section(1)).repeat(count)
}

/// "Two whole and a bad third in 2 slots: 15 at 2, both filled; in 1 slot: 16, nothing filled."
#[test]
fn a_bad_third_record() {
    let mut third = record(false, &section(0));
    third[0] = 0;
    let file = [record(false, &section(1)), record(false, &section(2)), third].concat();
    let both = [accepted(1), accepted(2)];
    assert_eq!(day(&file, 2), filled(bad(2), &both, 2));
    assert_eq!(day(&file, 3), filled(bad(2), &both, 3));
    assert_eq!(day(&file, 300), filled(bad(2), &both, 300));
    assert_eq!(day(&file, 1), filled(TOO_MANY, &[], 1));
    assert_eq!(day(&file, 0), filled(TOO_MANY, &[], 0));
    // "Counting whole records up to the first bad or cut one": those behind it do not count.
    let followed = [&file[..], &records(400)].concat();
    assert_eq!(day(&followed, 2), filled(bad(2), &both, 2));
    assert_eq!(day(&followed, 1), filled(TOO_MANY, &[], 1));
}

/// "257 records are 16 in any table."
#[test]
fn the_most_records() {
    assert_eq!(DAY_MOST, 256);
    for slots in [256, 257, 258, 300] {
        assert_eq!(day(&records(256), slots), filled(Ok(256), &[accepted(1); 256], slots));
        let followed = [&records(256)[..], b"\x57"].concat();
        assert_eq!(day(&followed, slots), filled(bad(256), &[accepted(1); 256], slots));
    }
    for slots in [0, 1, 255, 256, 257, 258, 300] {
        assert_eq!(day(&records(257), slots), filled(TOO_MANY, &[], slots));
        assert_eq!(day(&[&records(257)[..], b"\x57"].concat(), slots), filled(TOO_MANY, &[], slots));
    }
    assert_eq!(day(&records(256), 255), filled(TOO_MANY, &[], 255));
    assert_eq!(day(&records(255), 255), filled(Ok(255), &[accepted(1); 255], 255));
}

/// "An empty file in no slots is 0 records; no slot and a bad first record is 15 at 0."
#[test]
fn no_record_and_no_slot() {
    for slots in [0, 1, 300] {
        assert_eq!(day(&[], slots), filled(Ok(0), &[], slots));
        for file in [&b"\x57"[..], b"\x57\x52\0\0\0\0\0", b"\x57\x52\0\0\x01\0\0\0", &[0; 100]] {
            assert_eq!(day(file, slots), filled(bad(0), &[], slots));
        }
    }
    assert_eq!(day(&records(1), 0), filled(TOO_MANY, &[], 0));
}

/// "A refused section is an answer, not a bad record; a record of length 0 is one (refused 1, place 0)."
/// Places count from the section's start, and are C-17's.
#[test]
fn refused_sections() {
    let behind_a_key = [&b"\x80\0\0\0\x04\0\0\0\0\0\0\0\0\0\0\0akey"[..], &section(3)].concat();
    let file = [record(false, &section(1)), record(false, &[]), record(true, &behind_a_key)].concat();
    let refused = |number, place| Err(Refusal { number, place });
    let answers = [accepted(1), refused(number::INPUT_SHORT, 0), refused(number::CLASS, 20 + 2)];
    assert_eq!(day(&file, 3), filled(Ok(3), &answers, 3));
    assert_eq!(day(&file, 2), filled(TOO_MANY, &[], 2));
    assert_eq!(day(&[&file[..], b"?"].concat(), 5), filled(bad(3), &answers, 5));
}

/// "The record's bytes are the input, so a section may be shorter than its record."
#[test]
fn the_records_bytes_are_the_input() {
    let longer = [&section(1)[..], &records(1)].concat();
    let file =
        [record(false, &longer), record(false, &section(2)[..55]), record(false, &section(4))].concat();
    let refused = Refusal { number: number::INPUT_SHORT, place: 0 };
    let unlisted = Refusal { number: number::CLASS, place: 2 };
    assert_eq!(day(&file, 4), filled(Ok(3), &[accepted(1), Err(refused), Err(unlisted)], 4));
}

/// "Heads are the listing's; trailing bytes are a bad record."
#[test]
fn bad_and_cut_records() {
    let whole = [record(false, &section(1)), record(false, &section(2))].concat();
    for (at, value) in [(0, 0x56), (1, 0x57), (2, 2), (3, 1), (6, 1)] {
        let mut file = whole.clone();
        file[64 + at] = value;
        assert_eq!(day(&file, 2), filled(bad(1), &[accepted(1)], 2), "byte {at}");
    }
    for cut in 65..128 {
        assert_eq!(day(&whole[..cut], 2), filled(bad(1), &[accepted(1)], 2), "{cut} bytes");
    }
    let longest = record(false, &[0; 32_768]);
    assert_eq!(day(&longest, 1), filled(Ok(1), &[accepted(0)], 1));
    assert_eq!(day(&record(false, &[0; 32_769]), 1), filled(bad(0), &[], 1));
}

/// C-15 once more: the records are counted by the listing's own step, and each section is read alone.
fn plainly(file: &[u8], slots: usize) -> Day {
    let (mut answers, mut rest) = (Vec::new(), file);
    let end = loop {
        match next_record(rest) {
            Next::Record { size, answer } => {
                let alone = read(&rest[8..size], rest[2] == 1);
                assert_eq!(alone.map(|section| section.summary.length), answer.map(|line| line.total));
                answers.push(answer);
                rest = &rest[size..];
            }
            end => break end,
        }
    };
    match end {
        _ if answers.len() > slots || answers.len() > 256 => filled(TOO_MANY, &[], slots),
        Next::End => filled(Ok(answers.len()), &answers, slots),
        _ => filled(bad(answers.len()), &answers, slots),
    }
}

#[test]
fn generated_files() {
    let mut r = Random::new(51);
    for _ in 0..5_000 {
        let DayTable { file, slots } = day_table(&mut r);
        assert_eq!(day(&file, slots), plainly(&file, slots));
    }
}

/// "Each answer the values of its listing line."
#[test]
fn the_answers_are_the_listings_lines() {
    let mut r = Random::new(52);
    for _ in 0..2_000 {
        let DayTable { file, slots } = day_table(&mut r);
        let (answer, table) = day(&file, slots);
        let (count, end) = match answer {
            Ok(count) => (count, "end"),
            Err(refusal) if refusal.number == number::BAD_RECORD => (refusal.place, "stop"),
            Err(_) => continue,
        };
        let lines: String =
            table[..count].iter().zip(0..).map(|(answer, number)| line(number, answer)).collect();
        let mut listed = Vec::new();
        list(&file[..], &mut listed).unwrap();
        assert_eq!(String::from_utf8(listed).unwrap(), format!("{HEADER}{lines}{end} {count}\n"));
    }
}

#[test]
fn wrong_versions() {
    let mut r = Random::new(53);
    let days: Vec<_> = (0..2_000).map(|_| day_table(&mut r)).collect();
    let right: Vec<_> = days.iter().map(|DayTable { file, slots }| day(file, *slots)).collect();
    for wrong in WrongDay::all() {
        let found = days.iter().zip(&right).filter(|(DayTable { file, slots }, right)| {
            lent(*slots, |table| planted::read_day(wrong, file, table)) != **right
        });
        let found = found.count();
        println!("{wrong:?}: {found}");
        assert!(found > 0, "{wrong:?}");
    }
}
