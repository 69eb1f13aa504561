//! Which bytes are a section's support copy, and what the example says of files.

use std::ffi::OsString;
use std::fs;
use std::path::{Path, PathBuf};

use ugbariteyo::{is_support_copy, read, same_summary, support_copy_vec, First, LIMIT};

use First::{PropertiesHeader, SecurityHeader};

#[allow(dead_code)] // its main
#[path = "../examples/check_copy.rs"]
mod check_copy;

#[path = "given/copy.rs"]
mod given_copy;
#[allow(dead_code)] // what the other tests take
#[path = "given/section.rs"]
mod given_section;

use given_copy::full_copy;
use given_section::{full_section, properties, FULL_LENGTH};

/// The bytes with one bit of the section turned over, and its place: of each bit.
fn turned(bytes: &[u8]) -> impl Iterator<Item = (usize, u8, Vec<u8>)> + '_ {
    let bits = (0..FULL_LENGTH).flat_map(|at| (0..8).map(move |bit| (at, 1 << bit)));
    bits.map(|(at, bit)| {
        let mut other = bytes.to_vec();
        other[at] ^= bit;
        (at, bit, other)
    })
}

#[test]
fn the_copy_alone_is_the_support_copy() {
    let (bytes, copy) = (full_section(), full_copy());
    assert!(is_support_copy(&bytes, SecurityHeader, &copy));
    for (at, bit, other) in turned(&copy) {
        assert!(!is_support_copy(&bytes, SecurityHeader, &other), "byte {at}, bit {bit:#04x}");
    }
    for end in 0..FULL_LENGTH {
        assert!(!is_support_copy(&bytes, SecurityHeader, &copy[..end]), "{end} bytes");
    }
    for behind in [&[0][..], &[1], &bytes[FULL_LENGTH..], &[0; 100]] {
        assert!(!is_support_copy(&bytes, SecurityHeader, &[&copy, behind].concat()));
    }
    assert!(!is_support_copy(&bytes, SecurityHeader, &bytes[..FULL_LENGTH]), "it holds what is private");
    assert!(!is_support_copy(&bytes, SecurityHeader, &bytes));
}

#[test]
fn what_stands_behind_the_section_does_not_count() {
    let (bytes, copy) = (full_section(), full_copy());
    for end in FULL_LENGTH..=bytes.len() {
        assert!(is_support_copy(&bytes[..end], SecurityHeader, &copy));
    }
    for byte in 0..=u8::MAX {
        let longer = [&bytes[..FULL_LENGTH], &[byte; 20]].concat();
        assert!(is_support_copy(&longer, SecurityHeader, &copy), "{byte:#04x} behind");
    }
}

#[test]
fn private_bits_of_the_section_do_not_count() {
    let (bytes, copy) = (full_section(), full_copy());
    assert!(is_support_copy(&copy, SecurityHeader, &copy), "the copy has nothing private");
    for (at, bit, other) in turned(&bytes) {
        let same = same_summary(&other, &bytes, SecurityHeader);
        assert_eq!(is_support_copy(&other, SecurityHeader, &copy), same, "byte {at}, bit {bit:#04x}");
    }
}

#[test]
fn a_refused_section_has_no_copy() {
    let (bytes, copy) = (full_section(), full_copy());
    for end in 0..FULL_LENGTH {
        for copy in [&copy, &copy[..end], &bytes[..end]] {
            assert!(!is_support_copy(&bytes[..end], SecurityHeader, copy), "{end} bytes");
        }
    }
    assert!(!is_support_copy(&bytes, PropertiesHeader, &copy), "read the other way");
    // the same bit turned over in both: the section's masked bytes
    let mut refused = 0;
    for ((at, bit, section), (.., masked)) in turned(&bytes).zip(turned(&copy)) {
        let is_copy = support_copy_vec(&section, SecurityHeader).as_ref() == Ok(&masked);
        let found = is_support_copy(&section, SecurityHeader, &masked);
        assert_eq!(found, is_copy, "byte {at}, bit {bit:#04x}");
        if read(&section, SecurityHeader).is_err() {
            assert!(!found);
            refused += 1;
        }
    }
    assert!(refused > 100, "{refused} refused");
}

#[test]
fn the_smallest_and_the_longest() {
    for first in [PropertiesHeader, SecurityHeader] {
        assert!(!is_support_copy(&[], first, &[]));
        assert!(!is_support_copy(&[], first, &[0; 56]));
    }
    assert!(is_support_copy(&[0; 56], PropertiesHeader, &[0; 56]));
    assert!(!is_support_copy(&[0; 56], PropertiesHeader, &[]));

    let mut copy = properties(0, 0, 0, 4_194_248, 4_194_248);
    copy.resize(LIMIT, 0);
    let mut bytes = copy.clone();
    bytes[56..].fill(0xAA);
    assert!(is_support_copy(&bytes, PropertiesHeader, &copy));
    for at in [56, 57, LIMIT / 2, LIMIT - 1] {
        copy[at] = 1;
        assert!(!is_support_copy(&bytes, PropertiesHeader, &copy), "byte {at}");
        copy[at] = 0;
    }
}

/// What the example prints of these words, and its exit status.
fn checked(args: &[&Path]) -> (String, u8) {
    let args: Vec<OsString> = args.iter().map(|arg| (*arg).into()).collect();
    let mut printed = Vec::new();
    let answer = check_copy::check(&args, &mut printed);
    (String::from_utf8(printed).expect("the example prints text"), check_copy::status(&answer))
}

#[test]
fn the_example_checks_files() {
    let (section, copy) = (full_section(), full_copy());
    let files = [("section", &section[..]), ("copy", &copy), ("cut", &section[..20])].map(|(name, bytes)| {
        let path = Path::new(env!("CARGO_TARGET_TMPDIR")).join(format!("check_copy-{name}"));
        fs::write(&path, bytes).expect("a temporary file is written");
        path
    });
    let [section, copy, cut] = files.each_ref().map(PathBuf::as_path);
    let [security, none] = ["security", "none"].map(Path::new);
    let says = |answer: &str, status| (format!("support copy: {answer}\n"), status);
    assert_eq!(checked(&[security, section, copy]), says("true", 0));
    assert_eq!(checked(&[security, section, section]), says("false", 1));
    let short = "false\nrefused with 1 at 0: input ends before the section does";
    assert_eq!(checked(&[security, cut, copy]), says(short, 1));
    assert_eq!(checked(&[section, copy]), says("false\nrefused with 10 at 2: MessageClass not listed", 1));
    for wrong in [&[][..], &[section], &[none, section, copy], &[none, copy], &[section, none]] {
        assert_eq!(checked(wrong), (String::new(), 2), "{wrong:?}");
    }
}
