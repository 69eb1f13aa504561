//! The records of a day's file: those of the sample and of the listing program's own test, listed as that program lists
//! them; what stops; and what a record holds.

use ugbariteyo::{next_record, read, records, First, Next, Refusal, Stop};

#[allow(dead_code)] // its main
#[path = "../examples/list_day.rs"]
mod list_day;

#[path = "given/listing.rs"]
mod given_listing;
#[path = "given/record.rs"]
mod given_record;

use given_listing::lists_as_the_listing_program;
use given_record::record;

#[test]
fn the_example_lists_as_the_listing_program() {
    lists_as_the_listing_program(list_day::list);
}

#[test]
fn a_record_holds_its_section() {
    let secured = [&[0x80, 0, 0, 0, 1, 0][..], &[0; 10], b"k???", &[0; 56]].concat();
    let parts = [record(0, &[0; 60]), record(1, &secured), record(0, &[0xFF; 56])];
    let day = parts.concat();
    let found: Vec<_> = records(&day).map(|record| record.expect("the day is whole")).collect();
    let sections = [(First::PropertiesHeader, &[0; 60][..]), (First::SecurityHeader, &secured)];
    for ((record, (first, section)), bytes) in found.iter().zip(sections).zip(&parts) {
        assert_eq!((record.size, record.first, record.section), (bytes.len(), first, section));
        let (line, reading) = (record.answer.unwrap(), read(section, first).unwrap());
        assert_eq!(
            (line.message_class, line.label_length),
            (reading.message_class(), reading.label_length())
        );
        assert_eq!(
            (line.extension_size, line.message_size, line.section_length),
            (reading.extension_size(), reading.message_size(), reading.section_length())
        );
    }
    assert_eq!(found[0].answer.unwrap().section_length, 56, "bytes behind a section are not read");
    assert_eq!((found[2].size, found[2].answer), (64, Err(Refusal { number: 9, place: 1 })));
    assert_eq!(found.len(), 3);
    assert!(!format!("{:?}", found[1]).contains("107"), "no byte of a section is shown");
}

#[test]
fn a_wrong_or_cut_record_stops() {
    let whole = record(0, &[0; 56]);
    let wrong = |at: usize, byte: u8| {
        let mut wrong = whole.clone();
        wrong[at] = byte;
        wrong
    };
    let mut bad = vec![wrong(0, 0x52), wrong(1, 0x57), wrong(2, 2), wrong(3, 1), wrong(5, 0x81), wrong(7, 1)];
    bad.extend((1..whole.len()).map(|end| whole[..end].to_vec()));
    bad.push(record(0, &[0; 32_769]));
    for bad in bad {
        assert_eq!(next_record(&bad), Next::Stop);
        let day = [&whole[..], &whole, &bad, &whole].concat();
        // a cut one is cut by the file's end alone
        let day = if bad.len() < whole.len() { &day[..day.len() - whole.len()] } else { &day[..] };
        let mut records = records(day);
        assert!(records.by_ref().take(2).all(|record| record.is_ok()));
        assert_eq!(records.next(), Some(Err(Stop { number: 2, place: 128 })));
        assert_eq!((records.next(), records.next()), (None, None));
    }
    assert_eq!(next_record(&[]), Next::End);
    let stop = records(b"W").next().unwrap().unwrap_err();
    assert_eq!(stop.to_string(), "stopped at record 0, byte 0: wrong or cut head, or cut section");
}

#[test]
fn the_longest_record() {
    let day = [record(0, &[0; 32_768]), record(0, &[])].concat();
    let Next::Found(longest) = next_record(&day) else { panic!("a record of 32,768 bytes is found") };
    assert_eq!((longest.size, longest.section.len()), (32_776, 32_768));
    assert_eq!(
        next_record(&day[..32_776]),
        Next::Found(longest),
        "what is behind a record says nothing of it"
    );
    let empty = records(&day).nth(1).unwrap().unwrap();
    assert_eq!((empty.size, empty.section, empty.answer), (8, &[][..], Err(Refusal { number: 1, place: 0 })));
}
