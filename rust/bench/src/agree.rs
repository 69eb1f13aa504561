//! What has to hold before anything is timed: each tuned call answers as the library's, the request that C sends is the
//! one that Rust sends, and a day's file, a section in portions and a body's number are read alike by all.

use compare::days;
use compare::library::{section_values, Library};
use compare::second::Independent;
use compare::side::Side;
use independent::queue::HEAD;
use ugbariteyo::{is_support_copy, read_day, read_value, support_copy_vec, DaySlot, First, DAY_MOST};

use crate::c;
use crate::portions::SHORT;
use crate::refusals::Refused;
use crate::samples::{image, record, RequestSample, Sample};

/// Panics where a tuned call answers otherwise than the library: on these samples, in outputs long enough and a byte
/// short, with a class that is not listed, on every refused section, on right and wrong copies, and on images.
pub fn check(samples: &[Sample]) {
    for sample in samples {
        let section = sample.section();
        let lengths = [section.len(), section.len() - 1];
        let values = sample.values();
        let values = [values, independent::SectionValues { message_class: 0x8008, ..values }];
        let reads = lengths.map(|length| c::Section::new(&section, sample.first()).agrees(length));
        let writes =
            values.map(|values| lengths.map(|length| c::Given::new(&section_values(&values)).agrees(length)));
        assert_eq!((reads, writes), ([true; 2], [[true; 2]; 2]), "tuned: {}", sample.name);
        check_copies(sample);
    }
    for refused in Refused::all() {
        let section = c::Section::new(&refused.section, refused.first);
        assert!(section.agrees(refused.section.len()), "tuned: {}", refused.what);
        let copy = support_copy_vec(&refused.accepted, refused.first).expect("it is accepted");
        same_answer(&refused.section, refused.first, &copy, false);
    }
    check_images();
    check_request();
}

/// The copy itself; not with a bit more, of which a long one has fewer, nor another length, nor the section.
fn check_copies(sample: &Sample) {
    let (section, first) = (sample.section(), sample.first());
    let mut copy = support_copy_vec(&section, first).expect("the sample is legal");
    let length = copy.len();
    same_answer(&section, first, &copy, true);
    same_answer(&section, first, &section, false);
    for at in (0..length).step_by(1 + length / 1_000).chain([length - 1]) {
        copy[at] ^= 0x80;
        same_answer(&section, first, &copy, false);
        copy[at] ^= 0x80;
    }
    copy.push(0);
    same_answer(&section, first, &copy, false);
    same_answer(&section, first, &copy[..length - 1], false);
}

/// The library and the tuned check both answer this.
fn same_answer(section: &[u8], first: First, copy: &[u8], answer: bool) {
    assert_eq!(is_support_copy(section, first, copy), answer, "a copy of {} bytes", copy.len());
    assert!(c::Copied::new(section, first, copy).agrees(), "tuned: a copy of {} bytes", copy.len());
}

/// The sample's value behind every type, the next one too, with suffixes that go with some of them; whole and cut, and
/// written to outputs long enough and a byte short.
fn check_images() {
    let value = &image()[HEAD..];
    let formats = (0..=9)
        .flat_map(|kind| [0x00, 0x81, 0x82, 0x83, 0x04, 0x84, 0x05, 0x10].map(|suffix| [kind, suffix]));
    for format in formats {
        let image = [&format, &[0; 2], value].concat();
        let reads = (0..=image.len()).all(|length| c::Bytes::from(&image[..length]).image_agrees());
        let writes = [0, 8, 16, 20].into_iter().all(|fixed| {
            let (fixed, text) = value.split_at(fixed);
            let given = [c::GivenImage::new(format, fixed, text), c::GivenImage::new(format, fixed, &[])];
            given.iter().all(|given| given.agrees(image.len()) && given.agrees(image.len() - 1))
        });
        assert!(reads && writes, "tuned: an image of format {format:02X?}");
    }
}

fn check_request() {
    let section = RequestSample::new().section();
    let mut sent = vec![0; section.len()];
    c::send(&c::Nothing::LENT, &mut sent, 1);
    assert_eq!(sent, section, "C sends another request");
}

/// Panics where the library from Rust and from C, the independent one and the tuned call do not read a day's file
/// alike: of each sample as many records as a call reads, one more, and the last one cut, into as many slots, one fewer
/// and one more; and all refused sections in one file.
pub fn check_days(samples: &[Sample]) {
    for sample in samples {
        let file = sample.day(DAY_MOST + 1);
        let whole = file.len() / (DAY_MOST + 1) * DAY_MOST;
        for length in [whole, file.len(), whole - 1] {
            (DAY_MOST - 1..=DAY_MOST + 1).for_each(|slots| same_day(&file[..length], slots));
        }
    }
    let refused = Refused::all();
    let records = refused.iter().map(|one| record(one.first == First::SecurityHeader, &one.section));
    same_day(&records.collect::<Vec<_>>().concat(), refused.len());
}

/// All sides give the same number of records or refusal, and leave each slot of a table alike.
fn same_day(file: &[u8], slots: usize) {
    let library = days::read(&Library::new(None), file, slots);
    assert_eq!(library, days::read(&Independent, file, slots), "independent: a day of {} bytes", file.len());
    let mut table = vec![DaySlot::default(); slots];
    assert!(c::Day::new(file, &mut table).agrees(), "tuned: a day of {} bytes", file.len());
    // what C had filled, Rust fills again
    let from_c = table.clone();
    assert_eq!(read_day(file, &mut table).ok(), library.answer.ok(), "a day of {} bytes", file.len());
    assert_eq!(table, from_c, "from C: a day of {} bytes", file.len());
}

/// Panics where the library from Rust and from C, the independent one and the tuned calls do not read a section in
/// portions as the library does in one go: each sample in one and in short portions, short of a byte too, and every
/// refused section, byte by byte too.
pub fn check_portions(samples: &[Sample]) {
    for sample in samples {
        let section = sample.section();
        for size in [usize::MAX, SHORT] {
            same_portions(&section, sample.first(), size);
            same_portions(&section[..section.len() - 1], sample.first(), size);
        }
    }
    for refused in Refused::all() {
        for size in [usize::MAX, SHORT, 1] {
            same_portions(&refused.section, refused.first, size);
        }
    }
}

/// All sides give for portions of so many bytes what the library gives for the whole.
fn same_portions(section: &[u8], first: First, size: usize) {
    let library = Library::new(None);
    let security_first = first == First::SecurityHeader;
    let whole = library.summarize_nameless(section, security_first);
    for (side, name) in [(&library as &dyn Side, "library"), (&Independent, "independent")] {
        let mut state = side.portions(security_first);
        let taken = section.chunks(size).try_for_each(|bytes| state.portion(bytes));
        let answer = taken.and_then(|()| state.finish());
        assert_eq!(answer, whole, "{name}: {} bytes in portions of {size}", section.len());
    }
    let portions: Vec<_> = section.chunks(size).map(c::Bytes::from).collect();
    let agrees = c::Portioned::new(&portions, first).agrees(&c::Section::new(section, first));
    assert!(agrees, "from C or tuned: {} bytes in portions of {size}", section.len());
}

/// Panics where the library from Rust and from C, the independent one and the tuned call do not read a body's number
/// alike: of each sample, which has one, as it is, with each of its bits turned over, EB and those of BodyType and
/// MessageSize among them, and short of a byte; and of every refused section.
pub fn check_values(samples: &[Sample]) {
    for sample in samples {
        let (mut section, first) = (sample.section(), sample.first());
        assert!(read_value(&section, first).is_ok(), "{}: no number", sample.name);
        same_value(&section, first);
        same_value(&section[..section.len() - 1], first);
        for (at, bit) in (0..section.len()).flat_map(|at| (0..8).map(move |bit| (at, 1 << bit))) {
            section[at] ^= bit;
            same_value(&section, first);
            section[at] ^= bit;
        }
    }
    for refused in Refused::all() {
        same_value(&refused.section, refused.first);
        same_value(&refused.accepted, refused.first);
    }
}

/// All sides give the same number or refusal.
fn same_value(section: &[u8], first: First) {
    let security_first = first == First::SecurityHeader;
    let library = Library::new(None).read_value(section, security_first);
    assert_eq!(library, Independent.read_value(section, security_first), "independent: a number");
    assert!(c::Section::new(section, first).value_agrees(), "tuned: a number, {library:?}");
}
