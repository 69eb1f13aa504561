//! What the listing program prints, against which tests hold the examples that list a day's file.

use std::fmt::Debug;
use std::fs;

/// A file of the repository.
fn file(name: &str) -> Vec<u8> {
    fs::read(format!("{}/../../{name}", env!("CARGO_MANIFEST_DIR"))).expect("the file is in the repository")
}

/// `list` writes what the listing program prints: of its own test's file, which stops, of the sample and of no byte.
pub fn lists_as_the_listing_program<E: Debug>(list: impl Fn(&[u8], &mut Vec<u8>) -> Result<(), E>) {
    let listed = |file: &[u8]| {
        let mut lines = Vec::new();
        list(file, &mut lines).expect("a vector takes every line");
        String::from_utf8(lines).expect("letters and digits")
    };
    assert_eq!(listed(&file("crates/listing/stdin")).as_bytes(), file("crates/listing/stdout"));
    let sample = "\
no answer class label ext body total\n\
0 ok 0 9 5 8 156\n\
1 ok 0 8 0 2 76\n\
2 ok 32777 0 0 0 56\n\
3 refused 9 1\n\
4 refused 10 70\n\
5 ok 0 14 0 4 88\n\
end 6\n";
    assert_eq!(listed(&file("samples/day.bin")), sample);
    assert_eq!(listed(&[]), "no answer class label ext body total\nend 0\n");
}
