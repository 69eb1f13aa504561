//! `bench [DATE]` times the proved library beside plain safe Rust, tuned C, memcpy, memset and memcmp, and prints a
//! table of ratios. `bench growth [DATE]` prints how the library's times grow with each part of a section, and what
//! refusing costs. The listing program is the environment's LISTING, else `target/bin/listing` of the repository.

#![deny(unsafe_code)]

mod agree;
mod c;
mod calls;
mod growth;
mod listing;
mod output;
mod portions;
mod refusals;
mod samples;
mod table;
mod timing;

use std::process::ExitCode;
use std::time::{SystemTime, UNIX_EPOCH};
use std::{env, fs, io};

use compare::library::Library;
use samples::Sample;

/// The argument that asks for the tables of growth.
const GROWTH: &str = "growth";

fn main() -> ExitCode {
    let arguments: Vec<_> = env::args().skip(1).collect();
    let done = match arguments.iter().map(String::as_str).collect::<Vec<_>>()[..] {
        [listing::LIST] => listing::list(),
        [GROWTH, ref date @ ..] => grow(date.first().copied()),
        ref date => bench(date.first().copied()),
    };
    match done {
        Ok(()) => ExitCode::SUCCESS,
        Err(error) => {
            eprintln!("bench: {error}");
            ExitCode::FAILURE
        }
    }
}

fn bench(date: Option<&str>) -> io::Result<()> {
    let library = Library::new(None);
    let program = library.listing()?;
    let samples = [
        Sample::plain("no security, 100-byte body", 100),
        Sample::secured("full security, 250-unit label"),
        Sample::plain("no security, 4 KB body", 4_096),
        Sample::longest("no security, 4 MB body"),
    ];
    let short = &samples[..3];
    let numbers = [
        Sample::plain("no security, 8-byte body", 8).with_number(),
        Sample::secured("full security, 250-unit label, 8-byte body").with_number(),
    ];
    agree::check(&samples);
    agree::check_days(short);
    agree::check_portions(&samples);
    agree::check_values(&numbers);
    print_circumstances(date);
    println!("{}", table::HEADER);
    short.iter().for_each(|sample| println!("{}", calls::read(sample)));
    short.iter().for_each(|sample| println!("{}", calls::summarize(sample)));
    short.iter().for_each(|sample| println!("{}", calls::same_summary(sample)));
    short.iter().for_each(|sample| println!("{}", calls::label_shown(sample)));
    samples.iter().for_each(|sample| println!("{}", calls::support_copy(sample)));
    samples.iter().for_each(|sample| println!("{}", calls::is_support_copy(sample)));
    samples.iter().for_each(|sample| println!("{}", calls::write_section(sample)));
    println!("{}", calls::send());
    println!("{}", calls::defaulted());
    println!("{}", calls::read_image());
    println!("{}", calls::write_image());
    short.iter().for_each(|sample| println!("{}", calls::next_record(sample)));
    short.iter().for_each(|sample| println!("{}", calls::read_day(sample)));
    samples.iter().for_each(|sample| println!("{}", portions::one(sample)));
    short.iter().for_each(|sample| println!("{}", portions::short(sample)));
    numbers.iter().for_each(|sample| println!("{}", calls::read_value(sample)));
    println!("{}", listing::row(program)?);
    Ok(())
}

fn grow(date: Option<&str>) -> io::Result<()> {
    let samples = Sample::growing();
    agree::check(&samples);
    agree::check_portions(&samples);
    print_circumstances(date);
    growth::print(&samples);
    Ok(())
}

/// When and on what the times are taken, and how.
fn print_circumstances(date: Option<&str>) {
    let date = date.map_or_else(today, str::to_string);
    println!("{date}, {}; the best of 100 runs of half a millisecond.\n", processor());
}

/// The processor's name.
fn processor() -> String {
    let cpuinfo = fs::read_to_string("/proc/cpuinfo").unwrap_or_default();
    let name = cpuinfo.lines().find_map(|line| line.strip_prefix("model name")?.split_once(": "));
    name.map_or("processor not known", |(_, name)| name).to_string()
}

/// The date by the clock: days since 1970 counted off in years from March, whose leap day comes last.
fn today() -> String {
    let seconds = SystemTime::now().duration_since(UNIX_EPOCH).map_or(0, |since| since.as_secs());
    let days = seconds / 86_400 + 719_468;
    let (era, day) = (days / 146_097, days % 146_097);
    let year = (day - day / 1_460 + day / 36_524 - day / 146_096) / 365;
    let day = day - (365 * year + year / 4 - year / 100);
    let month = (5 * day + 2) / 153;
    let day = day - (153 * month + 2) / 5 + 1;
    let (year, month) = if month < 10 { (year, month + 3) } else { (year + 1, month - 9) };
    format!("{:04}-{month:02}-{day:02}", year + 400 * era)
}
