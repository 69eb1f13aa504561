//! What is seen of the slots of a lent table.

use compare::lend::lend_table;
use compare::side::{Answer, Refusal, Slot};

/// What `read` does with tables of three numbers, in which 7, 8 and 9 stand, then 8, 9 and 10. A number is shown as the
/// place of a refusal; 0 is no answer.
fn lent(read: impl Fn(&mut [usize]) -> Answer<usize>) -> (Answer<usize>, [Slot; 3]) {
    let mut table = [Slot::Spoilt; 3];
    let answer = lend_table(&mut table, |at| 7 + at, read, |number| (number != 0).then_some(refused(number)));
    (answer, table)
}

fn refused<T>(place: usize) -> Answer<T> {
    Err(Refusal { number: 1, place })
}

#[test]
fn slots_are_kept_or_filled() {
    assert_eq!(lent(|_| Ok(0)), (Ok(0), [Slot::Kept; 3]));
    assert_eq!(lent(|_| refused(5)), (refused(5), [Slot::Kept; 3]));
    // 8 stands there already in one of the tables
    let filled = lent(|table| {
        table[..2].fill(8);
        Ok(2)
    });
    assert_eq!(filled, (Ok(2), [Slot::Filled(refused(8)), Slot::Filled(refused(8)), Slot::Kept]));
}

#[test]
fn slots_are_spoilt_by_what_they_held_and_by_what_is_no_answer() {
    let spoilt = lent(|table| {
        table[0] += 1;
        table[2] = 0;
        Ok(3)
    });
    assert_eq!(spoilt, (Ok(3), [Slot::Spoilt, Slot::Kept, Slot::Spoilt]));
    let moved = lent(|table| {
        table.rotate_left(1);
        Ok(3)
    });
    assert_eq!(moved, (Ok(3), [Slot::Spoilt; 3]));
    assert_eq!(lent(|table| Ok(table[0])).1, [Slot::Spoilt; 3], "the answer depends on what stands there");
}

#[test]
#[should_panic(expected = "a slot that is kept has to show")]
fn the_same_slots_in_both_tables_tell_nothing() {
    let _ = lend_table(&mut [Slot::Kept], |_| 7, |_| Ok(0), |number| Some(refused(number)));
}
