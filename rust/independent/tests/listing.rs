//! The listing program's stream: ends, stops, and short reads.

use std::io::{self, Read};

use independent::generate::{case, day, Random};
use independent::listing::{line, list, next_record, Line, Next};
use independent::{number, read, Refusal};

const HEADER: &str = "no answer class label ext body total\n";

fn listed(input: impl Read) -> String {
    let mut lines = Vec::new();
    list(input, &mut lines).unwrap();
    String::from_utf8(lines).unwrap()
}

fn head(security_first: u8, length: u32) -> Vec<u8> {
    let mut head = vec![0x57, 0x52, security_first, 0];
    head.extend_from_slice(&length.to_le_bytes());
    head
}

/// A record of `length` bytes, all zero.
fn record(length: u32) -> Vec<u8> {
    let mut record = head(0, length);
    record.resize(8 + length as usize, 0);
    record
}

/// Gives a byte at a time, with an interruption before each.
struct Slow<'a>(&'a [u8], bool);

impl Read for Slow<'_> {
    fn read(&mut self, out: &mut [u8]) -> io::Result<usize> {
        self.1 = !self.1;
        if self.1 {
            return Err(io::ErrorKind::Interrupted.into());
        }
        let count = out.len().min(1);
        self.0.read(&mut out[..count])
    }
}

#[test]
fn empty_file() {
    assert_eq!(listed(&[][..]), format!("{HEADER}end 0\n"));
}

#[test]
fn cut_head_and_cut_section() {
    let file = [record(56), record(60)].concat();
    for length in 0..=file.len() {
        let last = match length {
            0 => "end 0\n",
            1..64 => "stop 0\n",
            64 => "0 ok 0 0 0 0 56\nend 1\n",
            65..132 => "0 ok 0 0 0 0 56\nstop 1\n",
            _ => "0 ok 0 0 0 0 56\n1 ok 0 0 0 0 56\nend 2\n",
        };
        assert_eq!(listed(&file[..length]), format!("{HEADER}{last}"));
    }
}

#[test]
fn wrong_heads() {
    for (at, value) in [(0, 0x56), (1, 0x57), (2, 2), (3, 1)] {
        let mut file = record(56);
        file[at] = value;
        assert_eq!(listed(&file[..]), format!("{HEADER}stop 0\n"));
        assert_eq!(next_record(&file), Next::Stop);
    }
}

#[test]
fn longest_record() {
    assert_eq!(listed(&record(32_768)[..]), format!("{HEADER}0 ok 0 0 0 0 56\nend 1\n"));
    assert_eq!(listed(&record(32_769)[..]), format!("{HEADER}stop 0\n"));
    assert_eq!(listed(&record(0)[..]), format!("{HEADER}0 refused 1 0\nend 1\n"));
    assert_eq!(next_record(&head(0, u32::MAX)), Next::Stop);
}

#[test]
fn security_first_and_places() {
    let mut file = head(1, 24);
    file.extend_from_slice(&[0x80, 0, 0, 0, 1, 0, 0, 0, 2, 0, 0, 0, 0, 0, 0, 0, 9, 0, 0, 0, 9, 9, 0, 0]);
    assert_eq!(listed(&file[..]), format!("{HEADER}0 refused 1 24\nend 1\n"));
    file[4] = 80;
    file.resize(88, 0);
    file[8 + 24 + 2] = 2;
    assert_eq!(listed(&file[..]), format!("{HEADER}0 ok 2 0 0 0 80\nend 1\n"));
}

#[test]
fn one_line() {
    let answer = Line { class: 0xC004, label: 250, extension: 7, body: 4_194_304, total: 9 };
    assert_eq!(line(10, &Ok(answer)), "10 ok 49156 250 7 4194304 9\n");
    let refusal = Refusal { number: number::LABEL, place: 4_194_304 };
    assert_eq!(line(u64::MAX, &Err(refusal)), "18446744073709551615 refused 12 4194304\n");
}

#[test]
fn errors_are_handed_on() {
    struct Broken;
    impl Read for Broken {
        fn read(&mut self, _: &mut [u8]) -> io::Result<usize> {
            Err(io::ErrorKind::BrokenPipe.into())
        }
    }
    assert_eq!(list(Broken, io::sink()).unwrap_err().kind(), io::ErrorKind::BrokenPipe);
}

/// The listing of a file that lies in memory, written down once more without a stream.
fn plainly(mut file: &[u8]) -> String {
    let mut lines = HEADER.to_string();
    for number in 0.. {
        let whole = file.len() >= 8
            && file[..2] == [0x57, 0x52]
            && file[2] <= 1
            && file[3] == 0
            && u32::from_le_bytes(file[4..8].try_into().unwrap()) <= 32_768
            && file.len() - 8 >= u32::from_le_bytes(file[4..8].try_into().unwrap()) as usize;
        if !whole {
            let word = if file.is_empty() { "end" } else { "stop" };
            lines += &format!("{word} {number}\n");
            break;
        }
        let end = 8 + u32::from_le_bytes(file[4..8].try_into().unwrap()) as usize;
        lines += &match read(&file[8..end], file[2] == 1).map(|section| section.summary) {
            Ok(summary) => {
                let p = summary.properties;
                let (class, label, extension, body) =
                    (p.class, p.label_length, p.extension_size, p.message_size);
                format!("{number} ok {class} {label} {extension} {body} {}\n", summary.length)
            }
            Err(refusal) => format!("{number} refused {} {}\n", refusal.number, refusal.place),
        };
        file = &file[end..];
    }
    lines
}

#[test]
fn streams_and_slow_streams_give_the_same() {
    let mut r = Random::new(41);
    for _ in 0..2_000 {
        let file = day(&mut r);
        let expected = plainly(&file);
        assert_eq!(listed(&file[..]), expected);
        assert_eq!(listed(Slow(&file, false)), expected);
    }
}

#[test]
fn reads_that_end_within_a_longest_record() {
    let file = [record(56), record(32_768), record(57)].concat();
    for short in 0..=12 {
        let (first, second) = file.split_at(64 + 8 + 32_768 - short);
        assert_eq!(listed(first.chain(second)), plainly(&file));
    }
}

#[test]
fn files_longer_than_the_window() {
    let mut r = Random::new(42);
    let mut file = Vec::new();
    while file.len() < 3_000_000 {
        let case = case(&mut r);
        let length = case.bytes.len().min(32_768);
        file.extend_from_slice(&head(case.security_first.into(), length as u32));
        file.extend_from_slice(&case.bytes[..length]);
        if r.once_in(40) {
            file.extend_from_slice(&record(32_768 - r.below(3) as u32));
        }
    }
    assert_eq!(listed(&file[..]), plainly(&file));
    file.pop();
    assert_eq!(listed(&file[..]), plainly(&file));
}
