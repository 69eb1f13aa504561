//! `compare [FACTOR] [SEED] [LISTING]`: holds the proved library against the independent one on generated cases.
//!
//! FACTOR multiplies the number of cases. SEED is a number, or `random` for one from the clock. LISTING is the listing
//! program, else the environment's LISTING, else `target/bin/listing` of the repository; the program `copies` is had in
//! the same way, by COPIES. The exit status is 1 where
//! anything differs, or where the cases met something too seldom: a refusal, or two neighbouring steps broken together.

use std::env;
use std::io;
use std::path::PathBuf;
use std::process::ExitCode;
use std::time::{SystemTime, UNIX_EPOCH};

use compare::library::Library;
use compare::report::{Tally, HEADER};
use compare::second::Independent;
use compare::side::Sides;
use compare::{
    alike, classes, copies, days, examples, fields, listing, pairs, places, portions, properties, queues,
    requests, retired, section_properties, sections, sweeps, values, writing,
};
use independent::generate::Random;

/// The seed where none is given.
const SEED: u64 = 0x57_52;
/// The refusals of a section that is read.
const SECTION: [u32; 12] = [1, 2, 3, 4, 5, 6, 7, 8, 9, 10, 11, 12];
/// The refusals of a section that comes in portions.
const PORTIONS: [u32; 13] = [1, 2, 3, 4, 5, 6, 7, 8, 9, 10, 11, 12, 14];
/// The refusals of a section whose body is to be a number.
const VALUE: [u32; 15] = [1, 2, 3, 4, 5, 6, 7, 8, 9, 10, 11, 12, 60, 61, 62];
/// The refusals of a section that is written.
const WRITER: [u32; 12] = [2, 3, 4, 6, 7, 8, 9, 10, 11, 12, 13, 28];
/// Those of its S and P steps.
const WRITER_STEPS: [u32; 10] = [2, 3, 4, 6, 7, 8, 9, 10, 11, 12];
/// The refusals of a request.
const REQUEST: [u32; 14] = [8, 10, 11, 13, 20, 21, 22, 23, 24, 25, 26, 27, 28, 29];

/// What is to be run.
struct Arguments {
    factor: u64,
    seed: u64,
    library: Library,
}

impl Arguments {
    fn parse(mut given: impl Iterator<Item = String>) -> Result<Self, String> {
        let number = |what: &str, text: &str| {
            text.parse().map_err(|_| format!("{what} is to be a number, not `{text}`"))
        };
        let factor = given.next().map_or(Ok(1), |text| number("FACTOR", &text))?;
        let seed = match given.next().as_deref() {
            None => SEED,
            Some("random") => clock(),
            Some(text) => number("SEED", text)?,
        };
        let library = Library::new(given.next().map(PathBuf::from));
        Ok(Self { factor, seed, library })
    }
}

fn clock() -> u64 {
    SystemTime::now().duration_since(UNIX_EPOCH).map_or(SEED, |since| since.as_nanos() as u64)
}

fn main() -> ExitCode {
    let arguments = match Arguments::parse(env::args().skip(1)) {
        Ok(arguments) => arguments,
        Err(why) => {
            eprintln!("compare: {why}");
            return ExitCode::FAILURE;
        }
    };
    match run(arguments) {
        Ok(0) => ExitCode::SUCCESS,
        Ok(_) => ExitCode::FAILURE,
        Err(error) => {
            eprintln!("compare: {error}");
            ExitCode::FAILURE
        }
    }
}

/// Runs every kind and prints its line; gives the number of differences.
fn run(arguments: Arguments) -> io::Result<u64> {
    let Arguments { factor, seed, library } = arguments;
    library.listing()?;
    let copied = copies::program()?;
    println!("seed {seed}, factor {factor}\n{HEADER}");
    let mut seeds = Random::new(seed);
    let mut generator = || Random::new(seeds.word());
    let sides = Sides { one: &library, other: &Independent };
    let (mut cases, mut differences) = (0, 0);
    let mut print = |mut tally: Tally, refusals: &[u32]| {
        tally.has_met(refusals);
        tally.has_met_all();
        println!("{tally}");
        tally.first().iter().for_each(|difference| println!("  {difference}"));
        cases += tally.cases();
        differences += tally.differences();
    };

    print(examples::run(sides), &[]);
    let both_ways = sections::run(sides, 1_000_000 * factor, &mut generator());
    both_ways.into_iter().for_each(|tally| print(tally, &SECTION));
    print(classes::run(sides, &mut generator()), &[10]);
    print(pairs::run(sides, &mut generator()), &[]);
    print(retired::run_reading(sides, &mut generator()), &[]);
    print(retired::run_sending(sides), &[21, 22, 23, 24, 25, 26, 27, 29]);
    print(sweeps::run(sides, &mut generator()), &[]);
    print(properties::run(&library, 500_000 * factor, &mut generator()), &SECTION);
    print(section_properties::run(sides, 200_000 * factor, &mut generator()), &SECTION);
    print(writing::run(sides, 300_000 * factor, &mut generator()), &WRITER);
    run_places(sides, factor, &mut generator()).into_iter().for_each(|(tally, met)| print(tally, met));
    print(queues::run_reading(sides, 300_000 * factor, &mut generator()), &[1, 30, 31, 32, 33]);
    print(queues::run_writing(sides, 300_000 * factor, &mut generator()), &[13, 30, 31, 32, 33]);
    print(requests::run(sides, 300_000 * factor, &mut generator()), &REQUEST);
    print(listing::run(sides, 100_000 * factor, &mut generator())?, &SECTION);
    print(copies::run(&copied, copies::faithful(), 50_000 * factor, &mut generator())?, &SECTION);
    print(days::run(sides, 20_000 * factor, &mut generator()), &[15, 16]);
    run_portions(sides, factor, &mut generator()).into_iter().for_each(|(tally, met)| print(tally, met));
    run_values(sides, factor, &mut generator()).into_iter().for_each(|(tally, met)| print(tally, met));
    println!("{cases} cases, {differences} differences");
    Ok(differences)
}

/// The kinds of C-17 and C-24's on refusals, and the refusals that each is to meet.
fn run_places(sides: Sides<'_>, factor: u64, r: &mut Random) -> [(Tally, &'static [u32]); 5] {
    [
        (places::run_reading(sides, 300_000 * factor, r), &SECTION),
        (places::run_writing(sides, 200_000 * factor, r), &WRITER_STEPS),
        (places::run_units(sides), &[7, 12]),
        (fields::run(sides, 100_000 * factor, r), &SECTION),
        (alike::run(sides, 100_000 * factor, r), &SECTION),
    ]
}

/// The kinds of C-12, and the refusals that each is to meet.
fn run_portions(sides: Sides<'_>, factor: u64, r: &mut Random) -> [(Tally, &'static [u32]); 3] {
    [
        (portions::run(sides, 200_000 * factor, r), &PORTIONS),
        (portions::cuts::run(sides), &[1, 6, 7, 10, 12]),
        (portions::run_behind(sides), &[]),
    ]
}

/// The kinds of C-16, and the refusals that each is to meet.
fn run_values(sides: Sides<'_>, factor: u64, r: &mut Random) -> [(Tally, &'static [u32]); 4] {
    [
        (values::run(sides, 200_000 * factor, r), &VALUE),
        (values::run_bodies(sides, 100_000 * factor, r), &[60, 61]),
        (values::written::run(sides, 100_000 * factor, r), &[13]),
        (values::swept::run(sides), &[11, 60, 61, 62]),
    ]
}
