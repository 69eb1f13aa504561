//! Neighbouring steps broken together: the lists, and inputs that break two steps.

use independent::neighbours::{self, List, Neighbours};
use independent::request::{defaulted, Request};
use independent::{number, planted, LIMIT};

fn names(pairs: impl IntoIterator<Item = Neighbours>) -> String {
    pairs.into_iter().map(|pair| pair.to_string()).collect::<Vec<_>>().join(" ")
}

#[test]
fn the_lists_are_the_papers() {
    let lists = [
        (
            List::Reading,
            "S2+S3 S3+S4 S4+S5 S5+S6 S6+S7 S7+S8 S8+S9 S9+S10 S10+S11 S11+P1 P2+P3 P3+P4 P4+P5 P5+P6 P6+P7 P7+13",
        ),
        (
            List::Writing,
            "28+S2 S2+S3 S3+S4 S4+S6 S6+S7 S7+S8 S8+S10 S10+S11 S11+P2 P2+P3 P3+P4 P4+P5 P5+P7 P7+13",
        ),
        (List::ImageRead, "30+31 31+32 32+33"),
        (List::ImageWritten, "30+31 31+32 32+33 33+13"),
        (
            List::Value,
            "S2+S3 S3+S4 S4+S5 S5+S6 S6+S7 S7+S8 S8+S9 S9+S10 S10+S11 S11+P1 P2+P3 P3+P4 P4+P5 P5+P6 P6+P7 P7+62 62+60 60+61",
        ),
        (List::Body, "60+61"),
        (List::Sending, "20+10 10+21 21+22 22+23 23+24 24+29 29+25 25+26 26+27 27+28 28+11 11+8 8+13"),
    ];
    for (list, expected) in lists {
        assert_eq!(names(list.neighbours()), expected);
        assert!(list.neighbours().iter().all(|pair| !pair.alike));
    }
    let heads = List::Record.neighbours();
    assert_eq!(names(heads.iter().filter(|pair| !pair.alike).copied()), "end+cut head");
    assert_eq!(heads.len(), 6);
}

/// A request signed by another provider that 26 and 27 refuse: no name, and more bytes than are given.
fn signed() -> Request<'static> {
    Request {
        signature: b"signature",
        hash_algorithm: Some(0x8004),
        split_number: Some(10),
        ..Request::default()
    }
}

#[test]
fn both_steps_are_broken_and_none_before_them() {
    let both = |request: &Request| names(neighbours::sending(request, 0));
    assert_eq!(both(&signed()), "26+27");
    let named = Request { provider_name: &[1], ..signed() };
    assert_eq!(both(&named), "", "28 passes");
    assert_eq!(both(&Request { priority: Some(8), ..signed() }), "", "20 fails and 10 passes");
    let extension = vec![0; LIMIT as usize];
    let long = Request { body: Some((b"body", 3)), extension: &extension, ..Request::default() };
    assert_eq!(both(&long), "11+8");
    assert_eq!(both(&Request { body: None, ..long }), "8+13");
}

#[test]
fn an_exchange_gives_the_other_refusal() {
    let pair = neighbours::sending(&signed(), 0).unwrap();
    let refused = |answer: Result<_, independent::Refusal>| answer.unwrap_err().number;
    assert_eq!(refused(defaulted(&signed())), number::REQUEST_PROVIDER);
    assert_eq!(refused(planted::defaulted_exchanged(pair.at, &signed())), number::SPLIT);
}

#[test]
fn steps_look_at_what_is_there() {
    let reading = |input: &[u8]| names(neighbours::reading(input, true, 0));
    let mut header = [0; 100];
    header[..2].copy_from_slice(&[0x81, 0]);
    header[2] = 8; // an identity of zeros, which S10 refuses
    assert_eq!(reading(&header), "", "S11 passes");
    assert_eq!(reading(&header[..24]), "", "S11 passes");
    header[4] = 100;
    assert_eq!(reading(&header), "S9+S10");
    assert_eq!(reading(&header[..23]), "", "the identity is cut");
    assert_eq!(reading(&[0xFF; 15]), "", "without 16 bytes no Flags are read");
}
