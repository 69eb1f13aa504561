//! The program `copies` does what the independent implementation does, and the comparison finds the wrong versions that
//! are planted in it.

use compare::copies::{faithful, program, run, Copier};
use compare::report::Tally;
use independent::generate::Random;
use independent::planted;

/// The generated records.
const RECORDS: u64 = 20_000;

fn compared(other: Copier) -> Tally {
    let program = program().expect("the program copies is there");
    run(&program, other, RECORDS, &mut Random::new(10)).expect("the program copies runs")
}

#[test]
fn day_files_copied() {
    let faithful_tally = compared(faithful());
    assert_eq!(faithful_tally.differences(), 0, "{:#?}", faithful_tally.first());
    for day in [
        planted::copy_day_length_kept,
        planted::copy_day_security_lost,
        planted::copy_day_refused_written,
        planted::copy_day_at_headers,
    ] {
        let wrong = compared(Copier { day, ..faithful() });
        assert!(wrong.differences() > 0, "a fault is not found: {wrong}");
    }
}
