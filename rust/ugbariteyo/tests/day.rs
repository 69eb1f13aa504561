//! A day's file in a single call: each slot that is filled, those that are not, and what is refused; and the example,
//! which lists from the table as the listing program lists the file.

use ugbariteyo::{read, read_day, records, DaySlot, First, Kind, Refusal, Units, DAY_MOST};

#[allow(dead_code)] // its main
#[path = "../examples/read_day.rs"]
mod example;

#[path = "given/listing.rs"]
mod given_listing;
#[path = "given/record.rs"]
mod given_record;
#[allow(dead_code)] // what the other tests take
#[path = "given/section.rs"]
mod given_section;

use given_listing::lists_as_the_listing_program;
use given_record::record;
use given_section::{full_section, properties, refused, FULL_LENGTH};

/// The bytes of the longest record, its head included.
const LONGEST: usize = 8 + 32_768;

/// A section without a SecurityHeader, of this class, with a label and an extension and a body of so many bytes.
fn section(class: u16, extension: u8, body: u8) -> Vec<u8> {
    let mut section = properties(2, class, extension.into(), body.into(), body.into());
    section.extend(b"a\0\0\0");
    section.resize((60 + usize::from(extension) + usize::from(body)).next_multiple_of(4), 0xFF);
    section
}

/// A day of so many records, no two of which are answered alike.
fn day(records: usize) -> Vec<u8> {
    let section = |number: usize| section(0, (number % 250) as u8, (number / 250) as u8);
    (0..records).flat_map(|number| record(0, &section(number))).collect()
}

/// The one slot of this day.
fn slot(day: &[u8]) -> DaySlot {
    let mut table = [DaySlot::default()];
    assert_eq!(read_day(day, &mut table), Ok(1));
    table[0]
}

/// Reads a day into so many slots. Those that the answer says are filled hold what reading each record alone gives;
/// the others are as they were, whether nothing or something stood in them.
#[track_caller]
fn answer(day: &[u8], slots: usize) -> Result<usize, Refusal> {
    let stood = slot(&record(0, &section(0xC004, 251, 252)));
    let alone: Vec<_> = records(day).map_while(Result::ok).map(|record| record.answer).collect();
    let [answer, again] = [DaySlot::default(), stood].map(|stood| {
        let mut table = vec![stood; slots];
        let answer = read_day(day, &mut table);
        let filled = match answer {
            Ok(records) => records,
            Err(refusal) if refusal.kind() == Some(Kind::BadRecord) => refusal.place,
            Err(_) => 0,
        };
        let answers: Vec<_> = table[..filled].iter().filter_map(DaySlot::answer).collect();
        assert_eq!(answers, alone[..filled]);
        assert!(table[filled..].iter().all(|slot| *slot == stood));
        answer
    });
    assert_eq!(answer, again);
    answer
}

const TOO_MANY: Result<usize, Refusal> = Err(Refusal { number: 16, place: 0 });

fn bad(number: usize) -> Result<usize, Refusal> {
    Err(refused(Kind::BadRecord, number))
}

#[test]
fn the_example_lists_as_the_listing_program() {
    lists_as_the_listing_program(example::list);
    let mut lines = Vec::new();
    let refusal = example::list(&day(257), &mut lines).unwrap_err();
    assert_eq!(refusal.to_string(), "refused with 16 at 0: more records than slots, or than 256");
    assert_eq!(lines, [], "nothing is listed");
}

#[test]
fn a_slot_holds_the_values_of_its_line() {
    let mut wrong_class = full_section();
    wrong_class[56 + 2] = 3;
    let plain = section(0xC004, 7, 3);
    let parts = [record(1, &full_section()), record(1, &wrong_class), record(0, &[]), record(0, &plain)];
    let mut table = [DaySlot::default(); 5];
    assert_eq!(read_day(&parts.concat(), &mut table), Ok(4));

    let values = |slot: &DaySlot| {
        let line = slot.answer().unwrap().unwrap();
        (line.message_class, line.label_length, [line.extension_size, line.message_size, line.section_length])
    };
    assert_eq!(values(&table[0]), (2, Units(2), [3, 1, FULL_LENGTH]));
    assert!(FULL_LENGTH < full_section().len(), "bytes behind a section are not read");
    assert_eq!(table[1].answer(), Some(Err(refused(Kind::Class, 56 + 2))));
    assert_eq!(read(&wrong_class, First::SecurityHeader), Err(refused(Kind::Class, 56 + 2)));
    assert_eq!(table[2].answer(), Some(Err(refused(Kind::InputShort, 0))));
    assert_eq!(values(&table[3]), (0xC004, Units(2), [7, 3, 72]));
    assert_eq!(table[4].answer(), None);
    assert_eq!(answer(&parts.concat(), 5), Ok(4));
}

#[test]
fn slots_are_compared_and_shown_by_their_answers() {
    let (first, second) = (slot(&record(0, &[0; 56])), slot(&record(0, &section(0, 1, 0))));
    let short = slot(&record(0, &[0; 55]));
    assert_eq!((first, short), (slot(&record(0, &[0; 60])), slot(&record(0, &[]))));
    assert!(first != second && first != short && first != DaySlot::default() && short != DaySlot::default());
    assert_eq!(format!("{:?}", DaySlot::default()), "DaySlot(None)");
    assert_eq!(format!("{short:?}"), "DaySlot(Some(Err(Refusal { number: 1, place: 0 })))");
    assert_eq!(format!("{second:?}"), format!("DaySlot({:?})", second.answer()));
}

/// Wrong heads, a length that no record has, and every cut.
#[test]
fn a_bad_record_leaves_the_slots_before_it_filled() {
    let whole = record(0, &section(2, 5, 6));
    let wrong = |at: usize, byte: u8| [&whole[..at], &[byte], &whole[at + 1..]].concat();
    let mut bad_ones = vec![wrong(0, 0x52), wrong(1, 0x57), wrong(2, 2), wrong(3, 1), wrong(7, 1)];
    bad_ones.push(record(0, &[0; 32_769]));
    for bad_one in &mut bad_ones {
        bad_one.extend(&whole);
    }
    bad_ones.extend((1..whole.len()).map(|end| whole[..end].to_vec()));
    for bad_one in bad_ones {
        let file = [day(2), bad_one.clone()].concat();
        assert_eq!([0, 1].map(|slots| answer(&file, slots)), [TOO_MANY; 2]);
        assert_eq!([2, 3, 300].map(|slots| answer(&file, slots)), [bad(2); 3]);
        assert_eq!([0, 1, 300].map(|slots| answer(&bad_one, slots)), [bad(0); 3], "the first record");
    }
    let refusal = bad(2).unwrap_err();
    assert_eq!(refusal.to_string(), "refused with 15 at 2: wrong or cut record head, or cut section");
    assert_eq!(refusal.field(&day(2), First::PropertiesHeader), None, "no place in a section");
}

#[test]
fn a_refused_section_is_no_bad_record() {
    let short = record(0, &[0; 55]);
    let file = [&short[..], &record(1, &[0xFF; 72]), &short, b"W"].concat();
    assert_eq!(answer(&file[..file.len() - 1], 3), Ok(3));
    assert_eq!(answer(&file, 3), bad(3));
    assert_eq!(answer(&file, 2), TOO_MANY);
}

#[test]
fn no_record_and_no_slot() {
    assert_eq!([0, 1, 300].map(|slots| answer(&[], slots)), [Ok(0); 3]);
    assert_eq!([1, 2, 300].map(|records| answer(&day(records), 0)), [TOO_MANY; 3]);
}

#[test]
fn up_to_256_records() {
    for records in [1, 2, 255, DAY_MOST] {
        let whole = day(records);
        let cut = [&whole[..], b"WR"].concat();
        assert_eq!([0, records - 1].map(|slots| answer(&whole, slots)), [TOO_MANY; 2]);
        assert_eq!([0, records - 1].map(|slots| answer(&cut, slots)), [TOO_MANY; 2]);
        assert_eq!([records, records + 1, 300].map(|slots| answer(&whole, slots)), [Ok(records); 3]);
        assert_eq!([records, records + 1, 300].map(|slots| answer(&cut, slots)), [bad(records); 3]);
    }
    for records in [257, 258, 1_000] {
        let whole = day(records);
        let cut = [&whole[..], b"WR"].concat();
        assert_eq!([0, 256, 257, 2_000].map(|slots| answer(&whole, slots)), [TOO_MANY; 4]);
        assert_eq!([0, 256, 257, 2_000].map(|slots| answer(&cut, slots)), [TOO_MANY; 4]);
    }
}

/// As many of the longest records as a table takes; and of a longer file the bytes of one more are enough to tell.
#[test]
fn the_longest_records() {
    let body = 32_768 - 56;
    let longest = record(0, &[properties(0, 0, 0, body, body), vec![0; body as usize]].concat());
    assert_eq!(longest.len(), LONGEST);
    assert_eq!(slot(&longest).answer().unwrap().unwrap().section_length, 32_768);
    let file = longest.repeat(DAY_MOST + 2);
    assert_eq!(answer(&file[..DAY_MOST * LONGEST], DAY_MOST), Ok(DAY_MOST));
    assert_eq!(answer(&file[..DAY_MOST * LONGEST - 1], DAY_MOST), bad(255));
    for end in [257 * LONGEST, file.len()] {
        assert_eq!(answer(&file[..end], 300), TOO_MANY);
        let mut file = file[..end].to_vec();
        file[DAY_MOST * LONGEST] = 0;
        assert_eq!(answer(&file, 300), bad(DAY_MOST));
    }
}
