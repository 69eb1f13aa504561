//! Each wrong version differs from the plain one somewhere in the generated cases.

use independent::field::field_of;
use independent::generate::{case, day, image, image_values, place_case, place_values, properties_case};
use independent::generate::{request, section_values, Random};
use independent::planted::{Dependence, WrongField, WrongKnown, WrongPlace, WrongTime, WrongYes};
use independent::properties::Properties;
use independent::{copies, listing, planted, queue, read, request as requests, support_copy, write_section};
use independent::{copy_by_sizes, is_support_copy, Refusal, Section};

/// In how many of 2,000 cases `differs` says so.
fn differences(seed: u64, differs: impl Fn(&mut Random) -> bool) -> usize {
    let mut r = Random::new(seed);
    (0..2_000).filter(|_| differs(&mut r)).count()
}

/// Whether two writers give different answers or outputs in `room` lent bytes.
fn writers_differ<A: PartialEq>(
    room: usize,
    plain: impl Fn(&mut [u8]) -> A,
    wrong: impl Fn(&mut [u8]) -> A,
) -> bool {
    let (mut a, mut b) = (vec![0x55; room], vec![0x55; room]);
    plain(&mut a) != wrong(&mut b) || a != b
}

/// In how many of 2,000 sections reading by `wrong` gives another answer.
fn readings(seed: u64, wrong: impl Fn(&[u8], bool) -> Result<Section<'_>, Refusal>) -> usize {
    differences(seed, |r| {
        let case = case(r);
        let (input, first) = (&case.bytes[..], case.security_first);
        read(input, first) != wrong(input, first)
    })
}

#[test]
fn sections() {
    let found = readings(1, planted::read);
    assert!(found > 100, "{found}");
}

#[test]
fn verdicts() {
    for wrong in planted::WrongVerdict::ALL {
        let found = readings(9, |input, first| planted::read_verdict(wrong, input, first));
        assert!(found > 0, "{wrong:?}");
    }
    for wrong in planted::WrongRetired::ALL {
        let found = readings(10, |input, first| planted::read_retired(wrong, input, first));
        assert!(found > 0, "{wrong:?}");
    }
}

#[test]
fn places() {
    let reads = |wrong, r: &mut Random| {
        let case = place_case(r);
        let (input, first) = (&case.bytes[..], case.security_first);
        read(input, first) != planted::read_placed(wrong, input, first)
    };
    let writes = |wrong, r: &mut Random| {
        let owned = place_values(r);
        let values = owned.as_values();
        writers_differ(
            owned.room,
            |out| write_section(&values, out),
            |out| planted::write_placed(wrong, &values, out),
        )
    };
    for wrong in WrongPlace::ALL.into_iter().chain([WrongPlace::READ]) {
        assert!(differences(12, |r| reads(wrong, r)) > 0, "{wrong:?}");
    }
    for wrong in WrongPlace::ALL.into_iter().chain(WrongPlace::WRITTEN) {
        assert!(differences(13, |r| writes(wrong, r)) > 0, "{wrong:?}");
    }
}

#[test]
fn fields() {
    for wrong in WrongField::all() {
        let found = differences(14, |r| {
            let case = place_case(r);
            let (input, first) = (&case.bytes[..], case.security_first);
            let Refusal { number, place } =
                read(input, first).err().unwrap_or(Refusal { number: 0, place: input.len() });
            let differs = |number, place| {
                field_of(input, first, number, place) != planted::field_of(wrong, input, first, number, place)
            };
            differs(number, place) || (0..input.len().min(1_000) + 2).any(|place| differs(0, place))
        });
        assert!(found > 0, "{wrong:?}");
    }
}

/// Copies that one may propose for `input`: what its sizes give, with one byte left as it is, longer or
/// shorter; the section itself, and none.
fn proposals(input: &[u8], security_first: bool, r: &mut Random) -> Vec<Vec<u8>> {
    let Some(copy) = copy_by_sizes(input, security_first) else { return vec![vec![]] };
    let mut kept = copy.clone();
    let at = r.below(copy.len());
    kept[at] = input[at];
    let section = input[..copy.len()].to_vec();
    let mut as_long = copy.clone();
    as_long.resize(input.len(), 0);
    let mut hidden = copy.clone();
    hidden.get_mut(16..18).unwrap_or_default().fill(0);
    let shorter = copy[..copy.len() - 1].to_vec();
    vec![[&copy[..], &[1]].concat(), shorter, kept, section, as_long, hidden, copy, vec![]]
}

#[test]
fn proposed_copies() {
    for wrong in WrongYes::all() {
        let found = differences(16, |r| {
            let case = case(r);
            let (input, first) = (&case.bytes[..], case.security_first);
            proposals(input, first, r).iter().any(|copy| {
                is_support_copy(input, first, copy) != planted::is_support_copy(wrong, input, first, copy)
            })
        });
        assert!(found > 0, "{wrong:?}");
    }
}

#[test]
fn refusals_that_depend_on_private_bits() {
    for wrong in Dependence::ALL {
        let found = readings(17, |input, first| planted::read_dependent(wrong, input, first));
        assert!(found > 0, "{wrong:?}");
        let found = differences(17, |r| {
            let case = case(r);
            let (input, first) = (&case.bytes[..], case.security_first);
            writers_differ(
                input.len(),
                |out| support_copy(input, first, out),
                |out| planted::support_copy_dependent(wrong, input, first, out),
            )
        });
        assert!(found > 0, "{wrong:?}");
    }
}

#[test]
fn steps_on_what_is_retired() {
    for wrong in planted::WrongStep::ALL {
        let found = differences(11, |r| {
            let owned = request(r);
            let request = owned.as_request();
            let values = requests::defaulted(&request) != planted::defaulted_retired(wrong, &request);
            let sent = writers_differ(
                owned.room,
                |out| requests::send(&request, out),
                |out| planted::send_retired(wrong, &request, out),
            );
            assert!(sent || !values, "where the values differ, so does what is sent");
            values
        });
        assert!(found > 0, "{wrong:?}");
    }
}

#[test]
fn times() {
    for wrong in WrongTime::ALL {
        let found = differences(18, |r| {
            let owned = request(r);
            let request = owned.as_request();
            let sent = writers_differ(
                owned.room,
                |out| requests::send(&request, out),
                |out| planted::send_timed(wrong, &request, out),
            );
            assert!(!sent || matches!(wrong, WrongTime::Checked | WrongTime::Written), "{wrong:?}");
            sent || requests::defaulted(&request) != planted::defaulted_timed(wrong, &request)
        });
        assert!(found > 0, "{wrong:?}");
    }
}

#[test]
fn properties_of_sections() {
    for wrong in WrongKnown::ALL {
        let found = differences(19, |r| {
            let case = properties_case(r);
            let (input, first) = (&case.bytes[..], case.security_first);
            let plain = read(input, first).map(|section| Properties::of(&section));
            plain != planted::properties(wrong, input, first)
        });
        assert!(found > 0, "{wrong:?}");
    }
}

#[test]
fn support_copies() {
    let found = differences(2, |r| {
        let case = case(r);
        let (input, first) = (&case.bytes[..], case.security_first);
        writers_differ(
            input.len(),
            |out| support_copy(input, first, out),
            |out| planted::support_copy(input, first, out),
        )
    });
    assert!(found > 100, "{found}");
}

#[test]
fn section_writers() {
    for wrong in [planted::write_section, planted::write_retired] {
        let found = differences(3, |r| {
            let owned = section_values(r);
            let values = owned.as_values();
            writers_differ(owned.room, |out| write_section(&values, out), |out| wrong(&values, out))
        });
        assert!(found > 100, "{found}");
    }
}

#[test]
fn queue_images() {
    let found = differences(4, |r| {
        let input = image(r);
        queue::read_image(&input) != planted::read_image(&input)
    });
    assert!(found > 100, "{found}");
    let found = differences(5, |r| {
        let v = image_values(r);
        writers_differ(
            v.room,
            |out| queue::write_image(v.kind, v.suffix_and_flags, &v.fixed, &v.text, out),
            |out| planted::write_image(v.kind, v.suffix_and_flags, &v.fixed, &v.text, out),
        )
    });
    assert!(found > 100, "{found}");
}

#[test]
fn send_requests() {
    let found = differences(6, |r| {
        let owned = request(r);
        requests::defaulted(&owned.as_request()) != planted::defaulted(&owned.as_request())
    });
    assert!(found > 100, "{found}");
    let found = differences(7, |r| {
        let owned = request(r);
        let request = owned.as_request();
        writers_differ(owned.room, |out| requests::send(&request, out), |out| planted::send(&request, out))
    });
    assert!(found > 100, "{found}");
}

#[test]
fn listings() {
    let found = differences(8, |r| {
        let file = day(r);
        let (mut a, mut b) = (Vec::new(), Vec::new());
        listing::list(&file[..], &mut a).unwrap();
        planted::list(&file[..], &mut b).unwrap();
        a != b
    });
    assert!(found > 100, "{found}");
    let found = differences(15, |r| {
        let file = day(r);
        let (mut a, mut b) = (Vec::new(), Vec::new());
        listing::list(&file[..], &mut a).unwrap();
        planted::list_placed(WrongPlace::HeaderStart, &file[..], &mut b).unwrap();
        assert_eq!(a != b, copies::copy_day(&file) != planted::copy_day_at_headers(&file));
        a != b
    });
    assert!(found > 100, "{found}");
    let answer = Ok(listing::Line { class: 0, label: 3, extension: 0, body: 0, total: 64 });
    assert_ne!(listing::line(0, &answer), planted::line(0, &answer));
}
