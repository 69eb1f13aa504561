//! The listing program: one line for each record of a day file.
//!
//! A record is "the mark 0x57 0x52, one byte 1 or 0 for security first, one zero byte, a 4-byte
//! length up to 32,768, the section".

use std::io::{self, ErrorKind, Read, Write};

use crate::bytes::u32_at;
use crate::order::{first_failure, Judged, Step};
use crate::{read, Refusal};

/// The bytes of a record's head.
pub const HEAD: usize = 8;
/// The most bytes behind a record's head.
pub const SECTION_MOST: usize = 32_768;
/// The first line of a listing.
pub const HEADER: &str = "no answer class label ext body total\n";

/// The most bytes of a record.
pub const RECORD_MOST: usize = HEAD + SECTION_MOST;
/// The bytes that are read or written at a time. Several records, so that few bytes are moved.
const BUFFER: usize = 8 * RECORD_MOST;

/// What an accepted record's line says.
#[derive(Debug, Clone, Copy, PartialEq, Eq)]
pub struct Line {
    /// The message class.
    pub class: u16,
    /// 16-bit units of label, its null included.
    pub label: u32,
    /// Extension bytes.
    pub extension: u32,
    /// Body bytes.
    pub body: u32,
    /// The section's length, which may be less than the record's.
    pub total: usize,
}

/// A record's answer.
pub type Answer = Result<Line, Refusal>;

/// What stands at the start of the rest of a day file.
#[derive(Debug, Clone, Copy, PartialEq, Eq)]
pub enum Next {
    /// Nothing: the file ends.
    End,
    /// "A wrong or cut record head, or a cut section".
    Stop,
    /// A whole record.
    Record {
        /// Its bytes, head and section.
        size: usize,
        /// What its line says.
        answer: Answer,
    },
}

/// The first record of `rest`, all the bytes that are left of a day file. [`RECORD_MOST`] of them are
/// enough.
pub fn next_record(rest: &[u8]) -> Next {
    next_by(&RECORD, answer, rest)
}

/// [`next_record`] by the tests of `order`, with the section's line made by `read`.
#[inline(always)]
pub(crate) fn next_by(order: &[RecordStep], read: impl Fn(&[u8], bool) -> Answer, rest: &[u8]) -> Next {
    match whole_by(order, rest) {
        Ok(Whole { section, security_first, .. }) => {
            Next::Record { size: HEAD + section.len(), answer: read(section, security_first) }
        }
        Err(step) => step.answer,
    }
}

/// A whole record that is not read yet.
#[derive(Clone, Copy)]
pub(crate) struct Whole<'a> {
    /// The bytes behind its head.
    pub section: &'a [u8],
    /// Whether a SecurityHeader stands first in them.
    pub security_first: bool,
    /// What is left of the day file behind them.
    pub behind: &'a [u8],
}

/// The first record of `rest`, or the test of `order` that it fails.
#[inline(always)]
pub(crate) fn whole_by<'o, 'a>(order: &'o [RecordStep], rest: &'a [u8]) -> Result<Whole<'a>, &'o RecordStep> {
    if let Some(step) = first_failure(order, rest) {
        return Err(step);
    }
    let (head, behind) = rest.split_at(HEAD);
    let (section, behind) = behind.split_at(section_length(rest));
    Ok(Whole { section, security_first: head[2] == 1, behind })
}

/// A test of what is left of a day file; it answers with what ends the listing.
pub(crate) type RecordStep = Step<fn(&[u8]) -> bool, Next>;

const fn stop(name: &'static str, fails: fn(&[u8]) -> bool) -> RecordStep {
    Step { name, answer: Next::Stop, test: fails }
}

/// The tests before a record is read. Those of a head look at the bytes that are there.
pub(crate) const RECORD: [RecordStep; 7] = [
    Step { name: "end", answer: Next::End, test: |rest| rest.is_empty() },
    stop("cut head", |rest| rest.len() < HEAD),
    stop("mark", |rest| rest.get(..2).is_some_and(|mark| mark != [0x57, 0x52])),
    stop("security byte", |rest| rest.get(2).is_some_and(|&first| first > 1)),
    stop("zero byte", |rest| rest.get(3).is_some_and(|&zero| zero != 0)),
    stop("length", |rest| section_length(rest) > SECTION_MOST),
    stop("cut section", |rest| section_length(rest) > rest.len().saturating_sub(HEAD)),
];

/// The name of the test that ends the listing before `rest`, if one does.
pub fn ended_by(rest: &[u8]) -> Option<&'static str> {
    first_failure(&RECORD, rest).map(|step| step.name)
}

/// The length in a record's head; 0 where the head is cut.
pub fn section_length(rest: &[u8]) -> usize {
    rest.get(4..HEAD).map_or(0, |length| u32_at(length, 0) as usize)
}

/// What is left of a day file.
impl Judged for [u8] {
    type Test = fn(&[u8]) -> bool;
    type Answer = Next;

    #[inline(always)]
    fn fails(&self, test: &Self::Test) -> bool {
        test(self)
    }
}

/// Reads one record's section.
pub(crate) fn answer(section: &[u8], security_first: bool) -> Answer {
    let summary = read(section, security_first)?.summary;
    Ok(Line {
        class: summary.properties.class,
        label: summary.properties.label_length.into(),
        extension: summary.properties.extension_size,
        body: summary.properties.message_size,
        total: summary.length,
    })
}

/// The line of record `number`, with its newline.
pub fn line(number: u64, answer: &Answer) -> String {
    let mut lines = Vec::new();
    push_line(&mut lines, number, answer);
    String::from_utf8(lines).expect("letters and digits")
}

/// Adds the line of record `number` to `lines`.
pub fn push_line(lines: &mut Vec<u8>, number: u64, answer: &Answer) {
    push_decimal(lines, number);
    match answer {
        Ok(line) => {
            lines.extend_from_slice(b" ok");
            let numbers = [line.class.into(), line.label, line.extension, line.body];
            for number in numbers.map(u64::from).into_iter().chain([line.total as u64]) {
                lines.push(b' ');
                push_decimal(lines, number);
            }
        }
        Err(refusal) => {
            lines.extend_from_slice(b" refused ");
            push_decimal(lines, refusal.number.into());
            lines.push(b' ');
            push_decimal(lines, refusal.place as u64);
        }
    }
    lines.push(b'\n');
}

/// Adds `number` in decimal.
fn push_decimal(lines: &mut Vec<u8>, mut number: u64) {
    let mut digits = [0; 20];
    let mut at = digits.len();
    loop {
        at -= 1;
        digits[at] = b'0' + (number % 10) as u8;
        number /= 10;
        if number == 0 {
            break;
        }
    }
    lines.extend_from_slice(&digits[at..]);
}

/// Lists the day file `input` on `output`: the header line, a line for each record, then `end` and
/// the number of records, or `stop` and the number of the record that is wrong or cut. Its memory
/// does not depend on the file.
pub fn list(input: impl Read, output: impl Write) -> io::Result<()> {
    list_by(&RECORD, answer, push_line, input, output)
}

/// [`list`] by the tests of `order`, with the sections read by `read` and their lines added by `push`.
#[inline(always)]
pub(crate) fn list_by(
    order: &[RecordStep],
    read: impl Fn(&[u8], bool) -> Answer,
    push: impl Fn(&mut Vec<u8>, u64, &Answer),
    input: impl Read,
    mut output: impl Write,
) -> io::Result<()> {
    let mut window = Window::new(input);
    let mut lines = Vec::with_capacity(BUFFER + 256);
    lines.extend_from_slice(HEADER.as_bytes());
    let mut number = 0;
    let last = loop {
        match next_by(order, &read, window.rest()?) {
            Next::End => break "end ",
            Next::Stop => break "stop ",
            Next::Record { size, answer } => {
                window.pass(size);
                push(&mut lines, number, &answer);
                number += 1;
            }
        }
        if lines.len() >= BUFFER {
            output.write_all(&lines)?;
            lines.clear();
        }
    };
    lines.extend_from_slice(last.as_bytes());
    push_decimal(&mut lines, number);
    lines.push(b'\n');
    output.write_all(&lines)?;
    output.flush()
}

/// A stretch of the input that holds at least one whole record, or all that is left.
struct Window<R> {
    input: R,
    bytes: Vec<u8>,
    start: usize,
    end: usize,
    exhausted: bool,
}

impl<R: Read> Window<R> {
    fn new(input: R) -> Self {
        Self { input, bytes: vec![0; BUFFER], start: 0, end: 0, exhausted: false }
    }

    /// The bytes from the first one not passed: [`RECORD_MOST`] or more, or all that is left.
    fn rest(&mut self) -> io::Result<&[u8]> {
        if self.end - self.start < RECORD_MOST && !self.exhausted {
            self.refill()?;
        }
        Ok(&self.bytes[self.start..self.end])
    }

    fn pass(&mut self, size: usize) {
        self.start += size;
    }

    /// Moves the rest to the front and reads until it holds a whole record or the input ends.
    fn refill(&mut self) -> io::Result<()> {
        self.bytes.copy_within(self.start..self.end, 0);
        self.end -= self.start;
        self.start = 0;
        while self.end < RECORD_MOST && !self.exhausted {
            match self.input.read(&mut self.bytes[self.end..]) {
                Ok(0) => self.exhausted = true,
                Ok(count) => self.end += count,
                Err(error) if error.kind() == ErrorKind::Interrupted => {}
                Err(error) => return Err(error),
            }
        }
        Ok(())
    }
}
