//! One name, number and text for each refusal and each field, and one version: in Rattle, in C and here; of the
//! refusals in the README too.

use std::fmt::Debug;
use std::fs;

use ugbariteyo::{Field, Kind};

/// A number, its name as in Rattle, and its text.
type Row = (u32, String, String);

/// A text file of the repository.
fn file(name: &str) -> String {
    let path = format!("{}/../../{name}", env!("CARGO_MANIFEST_DIR"));
    fs::read_to_string(path).expect("the file is in the repository")
}

/// What stands behind `from` and before `to`.
fn between<'a>(text: &'a str, from: &str, to: &str) -> &'a str {
    let (_, behind) = text.split_once(from).unwrap_or_else(|| panic!("{from} is not there"));
    behind.split_once(to).unwrap_or_else(|| panic!("{to} is not behind {from}")).0
}

fn row(number: &str, name: &str, text: &str) -> Row {
    (number.trim().parse().expect("a number"), name.trim().into(), text.trim().into())
}

/// `AuOrAs` is AU_OR_AS.
fn in_rattle(name: &str) -> String {
    let letter = |(at, letter): (usize, char)| {
        let parted = at > 0 && letter.is_uppercase();
        parted.then_some('_').into_iter().chain(letter.to_uppercase())
    };
    name.char_indices().flat_map(letter).collect()
}

fn here(number: u32, name: impl Debug, text: &str) -> Row {
    (number, in_rattle(&format!("{name:?}")), text.into())
}

/// The rows `X(NAME, number, "text")` of a table of the header's.
fn in_the_header(table: &str) -> Vec<Row> {
    let header = file("include/ugbariteyo.h").replace("\\\n", "");
    let rows = between(&header, &format!("#define {table}(X)"), "\n").split("X(").skip(1);
    rows.map(|given| {
        let mut values = given.splitn(3, ',');
        let mut next = || values.next().expect("three values");
        let (name, number) = (next(), next());
        row(number, name, between(next(), "\"", "\""))
    })
    .collect()
}

/// The rows of the README's table.
fn in_the_readme() -> Vec<Row> {
    let readme = file("README.md");
    let table = between(&readme, "## Refusals", "\n## ");
    let rows = table.lines().filter_map(|line| line.strip_prefix("| ")?.strip_suffix(" |"));
    rows.skip(1)
        .map(|refusal| {
            let [number, name, text] = refusal.split(" | ").collect::<Vec<_>>()[..] else {
                panic!("{refusal}")
            };
            row(number, name.trim_matches('`'), text)
        })
        .collect()
}

/// The lines `pub const NAME: u32 = number;` of a file, but for the number of none.
fn in_the_file(name: &str) -> Vec<(u32, String)> {
    let source = file(name);
    let constants = source.lines().filter_map(|line| line.strip_prefix("pub const ")?.strip_suffix(';'));
    constants
        .map(|constant| {
            let (name, number) = constant.split_once(": u32 = ").expect("a name and a number");
            (number.parse().expect("a number"), name.into())
        })
        .filter(|(number, _)| *number != 0)
        .collect()
}

/// The cases `Name = number,` of an enum of a file.
fn in_the_enum(name: &str, of: &str) -> Vec<(u32, String)> {
    let source = file(name);
    let cases = between(&source, &format!("pub enum {of} {{"), "}").lines().filter_map(|line| line.trim().strip_suffix(','));
    cases
        .map(|case| {
            let (name, number) = case.split_once(" = ").expect("a name and a number");
            (number.parse().expect("a number"), in_rattle(name))
        })
        .collect()
}

/// The numbers and names of rows.
fn names(rows: Vec<Row>) -> Vec<(u32, String)> {
    rows.into_iter().map(|(number, name, _)| (number, name)).collect()
}

#[test]
fn refusals_are_called_alike_everywhere() {
    let rows: Vec<Row> = Kind::ALL.iter().map(|&kind| here(kind as u32, kind, kind.text())).collect();
    assert_eq!(in_the_header("UGB_REFUSALS"), rows);
    assert_eq!(in_the_readme(), rows);
    assert_eq!(in_the_enum("crates/rules/src/refusal.rt", "Cause"), names(rows));
}

#[test]
fn fields_are_called_alike_everywhere() {
    let rows: Vec<Row> = Field::ALL.iter().map(|&field| here(field as u32, field, field.text())).collect();
    assert_eq!(in_the_header("UGB_FIELDS"), rows);
    assert_eq!(in_the_file("crates/fields/src/field.rt"), names(rows));
}

#[test]
fn the_version_is_the_headers() {
    let header = file("include/ugbariteyo.h");
    let part = |which: &str| between(&header, &format!("#define UGB_VERSION_{which} "), "\n").to_owned();
    assert_eq!(between(&header, "#define UGB_VERSION \"", "\""), env!("CARGO_PKG_VERSION"));
    assert_eq!(["MAJOR", "MINOR", "PATCH"].map(part).join("."), env!("CARGO_PKG_VERSION"));
}
