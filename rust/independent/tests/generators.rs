//! How often each refusal comes up in the generated cases, each level beside each algorithm, what is
//! retired, tables beside the records of a day's file, and calls of a section that comes in portions.
//! `--nocapture` prints the tables.

use std::collections::{BTreeMap, BTreeSet};

use independent::cause::{self, Cause};
use independent::generate::{case, day, image, image_values, request, section_values, Random};
use independent::generate::{day_table, place_case, place_values, properties_case, DayTable};
use independent::generate::{portions_case, typed_body, value_and_room, value_case, Call};
use independent::listing::{ended_by, next_record, Next};
use independent::neighbours::List;
use independent::queue::{read_image, write_image};
use independent::request::send;
use independent::{number, read, write_section, Refusal, Summary};

/// How often each number comes up; 0 for an acceptance.
type Counts = BTreeMap<u32, usize>;

fn counts<T>(
    name: &str,
    cases: usize,
    seed: u64,
    answer: impl Fn(&mut Random) -> Result<T, Refusal>,
) -> Counts {
    let mut r = Random::new(seed);
    let mut counts = Counts::new();
    for _ in 0..cases {
        *counts.entry(answer(&mut r).err().map_or(0, |refusal| refusal.number)).or_default() += 1;
    }
    println!("{name}: {counts:?}");
    counts
}

/// That each of `numbers` comes up `least` times, and nothing else than they and `rare` at all.
fn each_at_least(counts: &Counts, numbers: impl IntoIterator<Item = u32>, least: usize, rare: &[u32]) {
    let mut others = counts.clone();
    others.remove(&0);
    for number in numbers {
        assert!(others.remove(&number).unwrap_or(0) >= least, "refusal {number}");
    }
    for number in rare {
        assert!(others.remove(number).is_some(), "refusal {number}");
    }
    assert_eq!(others, Counts::new());
}

#[test]
fn sections() {
    let counts = counts("sections", 50_000, 1, |r| {
        let case = case(r);
        read(&case.bytes, case.security_first).map(|_| ())
    });
    assert!(counts[&0] > 15_000);
    each_at_least(&counts, 1..=12, 100, &[]);
}

/// The levels and algorithms of 003's table, and the levels 0, 2 and 4 beside them.
const LEVELS: [u32; 6] = [0, 1, 2, 3, 4, 5];
const ALGORITHMS: [u32; 5] = [0x6602, 0x660E, 0x660F, 0x6610, 0x6801];

/// Each level and any other comes beside each algorithm and any other, where EB is set.
#[test]
fn levels_and_algorithms() {
    let mut r = Random::new(8);
    let mut counts = BTreeMap::new();
    for _ in 0..50_000 {
        let case = case(&mut r);
        let Ok(section) = read(&case.bytes, case.security_first) else { continue };
        let Summary { security, properties, .. } = section.summary;
        if security.is_some_and(|security| security.flags.body_encrypted()) {
            let level = LEVELS.into_iter().find(|&level| level == properties.privacy);
            let algorithm = ALGORITHMS.into_iter().find(|&algorithm| algorithm == properties.encryption);
            *counts.entry((level, algorithm)).or_insert(0) += 1;
        }
    }
    println!("levels and algorithms: {counts:?}");
    assert_eq!(counts.len(), (LEVELS.len() + 1) * (ALGORITHMS.len() + 1));
    assert!(counts.values().all(|&sections| sections >= 40), "{counts:?}");
}

/// Level 1 and each retired hash come beside others, signed, unsigned and without a SecurityHeader, in
/// sections that are accepted: those to be read, and those to be written.
#[test]
fn retired_levels_and_hashes() {
    let (mut r, mut counts) = (Random::new(9), [BTreeMap::new(), BTreeMap::new()]);
    let mut count = |which: usize, signature: Option<usize>, level: u32, hash: u32| {
        let hash = (0x8001..=0x8003).contains(&hash).then_some(hash);
        let signed = signature.map(|bytes| bytes != 0);
        *counts[which].entry((signed, level == 1, hash)).or_insert(0) += 1;
    };
    for _ in 0..50_000 {
        let case = case(&mut r);
        if let Ok(section) = read(&case.bytes, case.security_first) {
            let Summary { security, properties, .. } = section.summary;
            count(0, security.map(|_| section.signature.len()), properties.privacy, properties.hash);
        }
        let owned = section_values(&mut r);
        if write_section(&owned.as_values(), &mut vec![0; owned.room]).is_ok() {
            let signature = owned.security_first.then_some(owned.signature.len());
            count(1, signature, owned.privacy_level, owned.hash_algorithm);
        }
    }
    for counts in counts {
        println!("retired levels and hashes: {counts:?}");
        assert_eq!(counts.len(), 3 * 2 * 4);
        assert!(counts.values().all(|&sections| sections >= 40), "{counts:?}");
    }
}

/// What a request's 29 looks at, next to it too, comes up where no step before it fails.
#[test]
fn retired_requests() {
    let (mut r, mut met) = (Random::new(10), BTreeSet::new());
    for _ in 0..50_000 {
        let owned = request(&mut r);
        let answer = send(&owned.as_request(), &mut vec![0; owned.room]).err().map(|refusal| refusal.number);
        let signature = owned.signature.len().min(2);
        let split = signature != 0 && owned.split_number.is_some();
        met.insert((owned.privacy_level == Some(1), owned.hash_algorithm, signature, split, answer));
    }
    for (signature, split) in [(0, false), (1, false), (1, true), (2, false), (2, true)] {
        for hash in [0x8000, 0x8001, 0x8002, 0x8003, 0x8004, 0x800C, 0x18001] {
            let retired = signature != 0 && (0x8001..=0x8003).contains(&hash);
            for (private, retired) in [(false, retired), (true, true)] {
                let case = (private, Some(hash), signature, split, retired.then_some(number::RETIRED));
                assert!(met.contains(&case), "{case:x?}");
            }
        }
    }
}

#[test]
fn values_to_be_written() {
    let counts = counts("section values", 50_000, 2, |r| {
        let owned = section_values(r);
        write_section(&owned.as_values(), &mut vec![0; owned.room])
    });
    assert!(counts[&0] > 15_000);
    let often = (2..=13).filter(|number| ![number::CERTIFICATE, number::LIMIT].contains(number));
    each_at_least(&counts, often, 100, &[number::LIMIT, number::PART_SIZE]);
}

/// Every cause of a refusal comes up among the cases for C-17, those to be read and those to be written.
#[test]
fn causes() {
    let mut r = Random::new(11);
    let mut met = [BTreeMap::new(), BTreeMap::new()];
    for _ in 0..50_000 {
        let (case, owned) = (place_case(&mut r), place_values(&mut r));
        let causes = [
            cause::reading(&case.bytes, case.security_first),
            cause::writing(&owned.as_values(), owned.room),
        ];
        for (met, cause) in met.iter_mut().zip(causes) {
            *met.entry(cause.map(|cause| cause.to_string())).or_insert(0) += 1;
        }
    }
    for (met, list) in met.iter().zip([List::Reading, List::Writing]) {
        println!("causes: {met:?}");
        for cause in Cause::all(list) {
            assert!(met.get(&Some(cause.to_string())).is_some_and(|&cases| cases >= 5), "{cause}");
        }
    }
}

#[test]
fn queue_images() {
    let counts = counts("queue images", 50_000, 3, |r| read_image(&image(r)).map(|_| ()));
    assert!(counts[&0] > 15_000);
    each_at_least(&counts, [1, 30, 31, 32, 33], 1_000, &[]);
}

#[test]
fn values_to_be_written_as_images() {
    let counts = counts("image values", 50_000, 4, |r| {
        let v = image_values(r);
        write_image(v.kind, v.suffix_and_flags, &v.fixed, &v.text, &mut vec![0; v.room])
    });
    assert!(counts[&0] > 15_000);
    each_at_least(&counts, [13, 30, 31, 32, 33], 1_000, &[]);
}

#[test]
fn send_requests() {
    let counts = counts("requests", 50_000, 5, |r| {
        let owned = request(r);
        send(&owned.as_request(), &mut vec![0; owned.room])
    });
    assert!(counts[&0] > 10_000);
    each_at_least(&counts, [10, 11, 13].into_iter().chain(20..=29), 100, &[number::LIMIT]);
}

#[test]
fn day_files() {
    let mut r = Random::new(6);
    let mut ended: BTreeMap<_, usize> = BTreeMap::new();
    let (mut accepted, mut refused) = (0, 0);
    for _ in 0..10_000 {
        let file = day(&mut r);
        let mut rest = &file[..];
        while let Next::Record { size, answer } = next_record(rest) {
            rest = &rest[size..];
            match answer {
                Ok(_) => accepted += 1,
                Err(_) => refused += 1,
            }
        }
        *ended.entry(ended_by(rest).expect("no record follows")).or_default() += 1;
    }
    println!("day files end by {ended:?}; records: {accepted} accepted, {refused} refused");
    assert!(ended["end"] > 1_000 && accepted > 5_000 && refused > 5_000);
    assert!(ended.len() == 7 && ended.values().all(|&files| files > 500), "{ended:?}");
}

/// A slot for each record, one more and one less come up where a file ends well and where it does not, for
/// few records and for 255 to 258; the slots that do not depend on the file; and each refusal of a section
/// in the tables that are filled.
#[test]
fn day_tables() {
    let mut r = Random::new(12);
    let (mut met, mut tables, mut counts) = (BTreeMap::new(), BTreeMap::new(), Counts::new());
    for _ in 0..20_000 {
        let DayTable { file, slots } = day_table(&mut r);
        let (mut rest, mut numbers) = (&file[..], Vec::new());
        while let Next::Record { size, answer } = next_record(rest) {
            numbers.push(answer.err().map_or(0, |refusal| refusal.number));
            rest = &rest[size..];
        }
        let records = numbers.len();
        if records.abs_diff(slots) < 2 && !(20..255).contains(&records) {
            let many = (records >= 255).then_some(records);
            *met.entry((many, slots.cmp(&records), rest.is_empty())).or_insert(0) += 1;
        }
        *tables.entry(slots).or_insert(0) += 1;
        if records <= slots.min(256) {
            numbers.iter().for_each(|&number| *counts.entry(number).or_default() += 1);
        }
    }
    println!("tables: {met:?}, slots: {tables:?}, records in them: {counts:?}");
    assert!(met.len() == 5 * 3 * 2 && met.values().all(|&files| files >= 5), "{met:?}");
    assert!([0, 1, 255, 256, 257, 300].iter().all(|slots| tables[slots] >= 100), "{tables:?}");
    each_at_least(&counts, 1..=12, 1_000, &[]);
}

/// Each refusal of a section comes up at the finish, and calls come behind the finish where it was accepted
/// and where it was refused; the portions joined are the bytes.
#[test]
fn sections_in_portions() {
    let (mut r, mut counts, mut behind) = (Random::new(13), Counts::new(), BTreeMap::new());
    let mut lengths = BTreeMap::new();
    for _ in 0..20_000 {
        let case = portions_case(&mut r);
        let (mut joined, mut number) = (Vec::new(), None);
        for call in case.calls() {
            match (call, number) {
                (Call::Portion(bytes), None) => joined.extend_from_slice(bytes),
                (Call::Finish, None) => {
                    let answer = read(&joined, case.security_first);
                    number = Some(answer.err().map_or(0, |refusal| refusal.number));
                }
                (call, Some(number)) => {
                    let finish = call == Call::Finish;
                    *behind.entry((finish, number == 0)).or_insert(0) += 1;
                }
            }
        }
        *counts.entry(number.expect("every case has a finish")).or_default() += 1;
        let portions = case.calls.iter().filter_map(|call| match call {
            Call::Portion(length) => Some(*length),
            Call::Finish => None,
        });
        let portions: Vec<_> = portions.collect();
        assert_eq!(portions.iter().sum::<usize>(), case.bytes.len());
        *lengths.entry(portions.len().min(4)).or_insert(0) += 1;
    }
    println!("portions: {counts:?}, behind the finish: {behind:?}, how many: {lengths:?}");
    assert!(counts[&0] > 4_000);
    each_at_least(&counts, 1..=12, 100, &[]);
    assert!(behind.len() == 4 && behind.values().all(|&calls| calls > 500), "{behind:?}");
    assert!(lengths.len() == 5 && lengths.values().all(|&cases| cases > 100), "{lengths:?}");
}

#[test]
fn the_same_seed_gives_the_same_cases() {
    let draw = || {
        let mut r = Random::new(7);
        let section = case(&mut r);
        let texts = [
            format!("{section:?}"),
            format!("{:?}", section_values(&mut r)),
            format!("{:?}", image_values(&mut r)),
            format!("{:?}", request(&mut r)),
            format!("{:?}", properties_case(&mut r)),
            format!("{:?}", day_table(&mut r)),
            format!("{:?}", portions_case(&mut r)),
        ];
        let sections = (texts, image(&mut r), day(&mut r));
        let values = [
            format!("{:?}", value_case(&mut r)),
            format!("{:?}", typed_body(&mut r)),
            format!("{:?}", value_and_room(&mut r)),
        ];
        (sections, values)
    };
    assert_eq!(draw(), draw());
}
