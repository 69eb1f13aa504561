//! Sections and day files copied for support staff by the program `copies`, and by the independent implementation.

use std::env;
use std::io::{self, ErrorKind, Write};
use std::path::{Path, PathBuf};
use std::process::{Command, Stdio};
use std::thread;

use independent::copies::{copy_day, copy_section, Copies};
use independent::generate::{case, day, long_day, Random};
use independent::listing::{next_record, Next, HEAD, RECORD_MOST};

use crate::library::unnamed;
use crate::report::{agree, hex, Check, Tally, OFTEN};
use crate::side::Source;

/// Where the program lies where nothing else is said.
const COPIES: &str = concat!(env!("CARGO_MANIFEST_DIR"), "/../../target/bin/copies");
/// The short day files to each long one, and the single sections.
const SHORT: usize = 300;
const SINGLE: usize = 300;
/// What counts as several buffers.
const SEVERAL: usize = 200_000;

/// What the files are to meet.
const LARGEST: &str = "length 32768";
const BEHIND: &str = "bytes behind a section";
const LEFT_OUT: &str = "a record left out between copies";
const STOPPED: &str = "wrong or cut after records";
const LONG: &str = "over 200 KB in and out";
/// How often they are to meet a file that is long in and out.
const LONG_LEAST: u64 = 2;

/// The other side: the copy of a day file, and of one section.
#[derive(Clone, Copy)]
pub struct Copier {
    /// Of a day file.
    pub day: fn(&[u8]) -> Copies,
    /// Of a section, and whether a SecurityHeader stands first.
    pub section: fn(&[u8], bool) -> Copies,
}

/// The independent implementation.
pub fn faithful() -> Copier {
    Copier { day: copy_day, section: copy_section }
}

/// The program: where the environment's COPIES says, else in the repository's `target/bin`.
pub fn program() -> io::Result<PathBuf> {
    let program = env::var_os("COPIES").map_or_else(|| COPIES.into(), PathBuf::from);
    if program.is_file() {
        return Ok(program);
    }
    let place = program.display();
    let why = format!("there is no program copies at {place}: build it, or say in COPIES where it lies");
    Err(io::Error::new(ErrorKind::NotFound, why))
}

/// Compares the copies of generated day files that hold `records` records or more, and of generated sections.
pub fn run(program: &Path, other: Copier, records: u64, r: &mut Random) -> io::Result<Tally> {
    let mut tally = Tally::new("records copied");
    for what in [LARGEST, BEHIND, LEFT_OUT, STOPPED] {
        tally.is_to_meet(what, OFTEN);
    }
    tally.is_to_meet(LONG, LONG_LEAST);
    add(&mut tally, program, other, &[], Source::Pipe)?;
    while tally.cases() < records {
        let long = long_day(r);
        add(&mut tally, program, other, &long, Source::File)?;
        add(&mut tally, program, other, &long, Source::Pipe)?;
        for _ in 0..SHORT {
            add(&mut tally, program, other, &day(r), Source::Pipe)?;
        }
    }
    for _ in 0..SINGLE {
        let single = case(r);
        let word = if single.security_first { "security" } else { "properties" };
        let found = copied(program, word, &single.bytes, Source::Pipe)?;
        let wanted = (other.section)(&single.bytes, single.security_first);
        tally.check(compare(&found, &wanted), || hex(&single.bytes));
    }
    Ok(tally)
}

/// Copies one file on both sides and counts its records.
fn add(tally: &mut Tally, program: &Path, other: Copier, file: &[u8], source: Source) -> io::Result<()> {
    let (found, wanted) = (copied(program, "day", file, source)?, (other.day)(file));
    tally.meet_if(file.len() > SEVERAL && found.output.len() > SEVERAL, LONG);
    survey(tally, file);
    tally.check(compare(&found, &wanted), || hex(file));
    Ok(())
}

/// Counts a file's records, and what it meets.
fn survey(tally: &mut Tally, file: &[u8]) {
    let mut rest = file;
    let (mut is_copied, mut is_left_out) = (false, false);
    while let Next::Record { size, answer } = next_record(rest) {
        tally.count(answer.map(|_| ()).map_err(|refusal| refusal.number));
        tally.meet_if(size == RECORD_MOST, LARGEST);
        tally.meet_if(answer.is_ok_and(|line| line.total < size - HEAD), BEHIND);
        tally.meet_if(is_left_out && answer.is_ok(), LEFT_OUT);
        is_left_out = is_copied && answer.is_err();
        is_copied = answer.is_ok();
        rest = &rest[size..];
    }
    tally.meet_if(rest.len() < file.len() && !rest.is_empty(), STOPPED);
}

/// What the program writes and says.
fn copied(program: &Path, word: &str, input: &[u8], source: Source) -> io::Result<Copies> {
    let stdin = match source {
        Source::Pipe => Stdio::piped(),
        Source::File => unnamed(input)?.into(),
    };
    let mut command = Command::new(program);
    command.arg(word).stdin(stdin).stdout(Stdio::piped()).stderr(Stdio::piped());
    let mut child = command.spawn()?;
    let stdin = child.stdin.take();
    let output = thread::scope(|threads| {
        let fed = threads.spawn(move || stdin.map_or(Ok(()), |mut pipe| pipe.write_all(input)));
        let output = child.wait_with_output()?;
        match fed.join().expect("feeding does not panic") {
            // it may stop before the end
            Err(error) if error.kind() != ErrorKind::BrokenPipe => Err(error),
            _ => Ok(output),
        }
    })?;
    if output.status.code().is_none() {
        return Err(io::Error::other(format!("the program copies ended with {}", output.status)));
    }
    Ok(Copies { output: output.stdout, said: String::from_utf8_lossy(&output.stderr).into_owned() })
}

/// Compares what was said, and what was written byte for byte; a difference shows the bytes from the first that differs.
fn compare(found: &Copies, wanted: &Copies) -> Check {
    agree("what the program says", &found.said, &wanted.said)?;
    if found.output != wanted.output {
        let pairs = found.output.iter().zip(&wanted.output);
        let at = pairs.take_while(|(one, other)| one == other).count();
        let (one, other) = (hex(&found.output[at..]), hex(&wanted.output[at..]));
        return agree(&format!("the copy from byte {at}"), &one, &other);
    }
    Ok(())
}
