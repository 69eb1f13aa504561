//! The rows that time calls. What is timed from C and what is tuned answers as the library called from Rust does.

use std::hint::black_box;

use compare::library::{request as library_request, section_values};
use ugbariteyo as library;
use ugbariteyo::{DaySlot, First, Refusal, DAY_MOST};

use crate::c;
use crate::output::Output;
use crate::samples::{image, RequestSample, Sample};
use crate::table::Column::{FromC, Library, Memcmp, Memcpy, Memset, PlainRust, TunedC};
use crate::table::{Column, Row};
use crate::timing::{taken, Repeated};

/// Reading a section.
pub fn read(sample: &Sample) -> Row {
    let (section, first) = (sample.section(), sample.first());
    let lent = c::Section::new(&section, first);
    let calls = vec![
        (Library, taken(|| library::read(&section, first))),
        (FromC, from_c(|times| c::read(&lent, &mut [], times))),
        (PlainRust, taken(|| independent::read(&section, sample.security_first))),
        (TunedC, from_c(|times| c::tuned_read(&lent, &mut [], times))),
    ];
    Row::timed(format!("read, {}", sample.name), section.len(), calls)
}

/// The summary of a section.
pub fn summarize(sample: &Sample) -> Row {
    let (section, first) = (sample.section(), sample.first());
    let lent = c::Section::new(&section, first);
    let calls = vec![
        (Library, taken(|| summary_in_one_go(&section, first))),
        (FromC, from_c(|times| c::summarize(&lent, &mut [], times))),
    ];
    Row::timed(format!("summarize, {}", sample.name), section.len(), calls)
}

/// What is taken of a summary in Rust: class, label and length.
pub type Values = (u16, usize, usize);

/// They, of the library's summary.
pub fn values(summary: library::Summary<'_>) -> Values {
    (summary.message_class, summary.label.bytes().len(), summary.section_length)
}

/// They, of the library's summary of a section that lies together: one function, so that every row has the same code.
pub fn summary_in_one_go(section: &[u8], first: First) -> Result<Values, Refusal> {
    library::summarize(section, first).map(values)
}

/// The same summary of a section and of another that agrees with it.
pub fn same_summary(sample: &Sample) -> Row {
    let (section, first) = (sample.section(), sample.first());
    let (other, mut lent_other) = (section.clone(), section.clone());
    let lent = c::Section::new(&section, first);
    let calls = vec![
        (Library, taken(|| library::same_summary(&section, &other, first))),
        (FromC, from_c(|times| c::same_summary(&lent, &mut lent_other, times))),
        (PlainRust, taken(|| independent::same_summary(&section, &other, sample.security_first))),
    ];
    Row::timed(format!("same summary, {}", sample.name), section.len(), calls)
}

/// The label shown of a section.
pub fn label_shown(sample: &Sample) -> Row {
    let (section, first) = (sample.section(), sample.first());
    let lent = c::Section::new(&section, first);
    let calls = vec![
        (Library, taken(|| library::label_shown(&section, first, STAND_IN))),
        (FromC, from_c(|times| c::label_shown(&lent, &mut [], times))),
        (PlainRust, taken(|| independent::label_shown(&section, sample.security_first, STAND_IN))),
    ];
    Row::timed(format!("label shown, {}", sample.name), section.len(), calls)
}

/// Reading the number that is a section's body.
pub fn read_value(sample: &Sample) -> Row {
    let (section, first) = (sample.section(), sample.first());
    let lent = c::Section::new(&section, first);
    let calls = vec![
        (Library, taken(|| library::read_value(&section, first))),
        (FromC, from_c(|times| c::read_value(&lent, &mut [], times))),
        (PlainRust, taken(|| independent::value::read_value(&section, sample.security_first))),
        (TunedC, from_c(|times| c::tuned_read_value(&lent, &mut [], times))),
    ];
    Row::timed(format!("read value, {}", sample.name), section.len(), calls)
}

/// What is shown where there is no label.
pub const STAND_IN: &[u8] = b"no label";

/// The support copy of a section.
pub fn support_copy(sample: &Sample) -> Row {
    let (section, first) = (sample.section(), sample.first());
    let lent = c::Section::new(&section, first);
    let out = Output::new(section.len());
    let calls = vec![
        (Library, out.written(|out| library::support_copy(&section, first, out))),
        (FromC, out.lent(|out, times| c::support_copy(&lent, out, times))),
        (PlainRust, out.written(|out| independent::support_copy(&section, sample.security_first, out))),
        (TunedC, out.lent(|out, times| c::tuned_support_copy(&lent, out, times))),
    ];
    written(format!("support copy, {}", sample.name), &out, calls)
}

/// The check of a section's support copy, beside memcmp of as many bytes that are equal.
pub fn is_support_copy(sample: &Sample) -> Row {
    let (section, first) = (sample.section(), sample.first());
    let copy = library::support_copy_vec(&section, first).expect("the sample is legal");
    let equal = copy.clone();
    let lent = c::Copied::new(&section, first, &copy);
    let calls = vec![
        (Library, taken(|| library::is_support_copy(&section, first, &copy))),
        (FromC, from_c(|times| c::is_support_copy(&lent, &mut [], times))),
        (PlainRust, taken(|| independent::is_support_copy(&section, sample.security_first, &copy))),
        (TunedC, from_c(|times| c::tuned_is_support_copy(&lent, &mut [], times))),
        (Memcmp, taken(|| *black_box(&equal) == copy)),
    ];
    Row::timed(format!("check copy, {}", sample.name), copy.len(), calls)
}

/// Writing a section.
pub fn write_section(sample: &Sample) -> Row {
    let values = sample.values();
    let library_values = section_values(&values);
    let lent = c::Given::new(&library_values);
    let out = Output::new(sample.section().len());
    let calls = vec![
        (Library, out.written(|out| library::write_section(&library_values, out))),
        (FromC, out.lent(|out, times| c::write_section(&lent, out, times))),
        (PlainRust, out.written(|out| independent::write_section(&values, out))),
        (TunedC, out.lent(|out, times| c::tuned_write_section(&lent, out, times))),
    ];
    written(format!("write, {}", sample.name), &out, calls)
}

/// Sending a request.
pub fn send() -> Row {
    let sample = RequestSample::new();
    let request = sample.request();
    let lent = library_request(&request);
    let out = Output::new(sample.section().len());
    let calls = vec![
        (Library, out.written(|out| library::send(&lent, out))),
        (FromC, out.lent(|out, times| c::send(&c::Nothing::LENT, out, times))),
        (PlainRust, out.written(|out| independent::request::send(&request, out))),
    ];
    written("send, signed, 40-unit title".into(), &out, calls)
}

/// The defaulted properties of a request; of the properties in Rust, title and body size are taken.
pub fn defaulted() -> Row {
    let sample = RequestSample::new();
    let request = sample.request();
    let lent = library_request(&request);
    let calls = vec![
        (
            Library,
            taken(|| library::defaulted(&lent).map(|values| (values.title.length(), values.message_size))),
        ),
        (FromC, from_c(|times| c::defaulted(&c::Nothing::LENT, &mut [], times))),
        (PlainRust, taken(|| independent::request::defaulted(&request))),
    ];
    Row::timed("defaulted, signed, 40-unit title".into(), sample.section().len(), calls)
}

/// Reading a queue format image.
pub fn read_image() -> Row {
    let image = image();
    let lent = c::Bytes::from(&image[..]);
    let calls = vec![
        (Library, taken(|| library::read_image(&image))),
        (FromC, from_c(|times| c::read_image(&lent, &mut [], times))),
        (PlainRust, taken(|| independent::queue::read_image(&image))),
        (TunedC, from_c(|times| c::tuned_read_image(&lent, &mut [], times))),
    ];
    Row::timed("queue image read, direct name".into(), image.len(), calls)
}

/// Writing a queue format image.
pub fn write_image() -> Row {
    let image = image();
    let lent = c::GivenImage::new([image[0], image[1]], &[], &image[4..]);
    let read = library::read_image(&image).expect("the sample is legal");
    let out = Output::new(image.len());
    let calls = vec![
        (Library, out.written(|out| library::write_image(&read, out))),
        (FromC, out.lent(|out, times| c::write_image(&lent, out, times))),
        (
            PlainRust,
            out.written(|out| independent::queue::write_image(image[0], image[1], &[], &image[4..], out)),
        ),
        (TunedC, out.lent(|out, times| c::tuned_write_image(&lent, out, times))),
    ];
    written("queue image write, direct name".into(), &out, calls)
}

/// The next record of a day's file, which is this sample's.
pub fn next_record(sample: &Sample) -> Row {
    let record = sample.record();
    let calls = vec![
        (Library, taken(|| library::next_record(&record))),
        (PlainRust, taken(|| independent::listing::next_record(&record))),
    ];
    Row::timed(format!("next record, {}", sample.name), record.len(), calls)
}

/// A day's file of so many records as a call reads, each this sample's, read into a table with a slot for each.
pub fn read_day(sample: &Sample) -> Row {
    let file = sample.day(DAY_MOST);
    let [mut table, mut table_of_c, mut tuned_table] = [[DaySlot::default(); DAY_MOST]; 3];
    let mut answers = [Err(independent::Refusal { number: 0, place: 0 }); DAY_MOST];
    let [lent, tuned_lent] = [&mut table_of_c, &mut tuned_table].map(|table| c::Day::new(&file, table));
    let calls = vec![
        (Library, filled(&mut table, |table| library::read_day(&file, table))),
        (FromC, from_c(|times| c::read_day(&lent, &mut [], times))),
        (PlainRust, filled(&mut answers, |table| independent::day::read_day(&file, table))),
        (TunedC, from_c(|times| c::tuned_read_day(&tuned_lent, &mut [], times))),
    ];
    Row::timed(format!("read day, {DAY_MOST} records, {}", sample.name), file.len(), calls)
}

/// A call that must not be refused and fills this table, to be repeated.
fn filled<'a, S, E>(table: &'a mut [S], call: impl Fn(&mut [S]) -> Result<usize, E> + 'a) -> Repeated<'a> {
    Box::new(move |times| {
        for _ in 0..times {
            assert!(call(black_box(&mut *table)).is_ok());
        }
    })
}

/// Calls made from C, to be repeated.
pub fn from_c<'a>(calls: impl FnMut(u64) + 'a) -> Repeated<'a> {
    Box::new(calls)
}

/// Times writers beside memcpy and memset of as many bytes, to the same output.
fn written<'a>(what: String, out: &'a Output, mut calls: Vec<(Column, Repeated<'a>)>) -> Row {
    calls.extend([(Memcpy, out.memcpy()), (Memset, out.memset())]);
    Row::timed(what, out.length, calls)
}
