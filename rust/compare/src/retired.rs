//! What C-21 retires and the numbers next to it. Sections of every such level and hash, signed, unsigned and without a
//! SecurityHeader, EB set and clear; requests of every such privacy and hash, beside what the steps around 29 look at.
//! Both sides, and C-21's sentences.

use independent::generate::Random;

use crate::lend::lend;
use crate::pairs::{near, section, HEADS};
use crate::report::{agree, values_in_hex, Tally};
use crate::side::{Answer, Refusal, Request, Sides};
use crate::{requests, sections};

/// The one level that is retired, and the hashes that are where a signature is.
const LEVEL: u32 = 1;
const HASHES: [u32; 3] = [0x8001, 0x8002, 0x8003];
/// An encryption algorithm, which does not count.
const ALGORITHM: u32 = 0x6801;
/// A signature's bytes whose SignatureSize has a low byte of 0.
const LONG: usize = 256;

/// The bytes lent for a section that is sent, which is enough.
const ROOM: usize = 80;

/// What the library finds retired.
const RETIRED: &str = "retired";

/// "True exactly when PrivacyLevel is 1, or a signature is present with hash 0x8001, 0x8002 or 0x8003."
fn is_retired(level: u32, signed: bool, hash: u32) -> bool {
    level == LEVEL || signed && HASHES.contains(&hash)
}

/// Compares both sides at every section: "reading accepts them as before", and each is written again.
pub fn run_reading(sides: Sides<'_>, r: &mut Random) -> Tally {
    let mut tally = Tally::new("retired sections");
    let long = [&b"\xC0\0\0\0\0\0\0\x01\0\0\0\0\0\0\0\0"[..], &[b's'; LONG]].concat();
    let heads = [&HEADS[..], &[(&long, false, true)]].concat();
    let (mut levels, mut hashes) = (near(&[LEVEL]), near(&HASHES));
    levels.extend(0..=7);
    hashes.extend(0x7FFF..=0x8010);
    // by its level with each hash, and at each level by a hash
    tally.is_to_meet(RETIRED, (heads.len() * hashes.len() + levels.len()) as u64);
    for (&level, &hash) in levels.iter().flat_map(|level| hashes.iter().map(move |hash| (level, hash))) {
        for &(head, _, signed) in &heads {
            let (input, security_first) = (section(head, (level, ALGORITHM), hash), !head.is_empty());
            let answer = sides.one.summarize(&input, security_first);
            let retired = answer.map(|summary| summary.retired);
            tally.meet_if(retired == Ok(true), RETIRED);
            let check = agree(RETIRED, &retired, &Ok(is_retired(level, signed, hash)))
                .and_then(|()| sections::compare(sides, &input, security_first, r));
            tally.add(&answer, check, || sections::described(&input, security_first));
        }
    }
    tally
}

/// Compares both sides at every request.
pub fn run_sending(sides: Sides<'_>) -> Tally {
    let mut tally = Tally::new("retired requests");
    for request in requests() {
        let wanted = wanted(&request);
        let answer = lend(ROOM, |out| sides.one.send(&request, out).map(|sent| sent.length)).answer;
        let check =
            agree("the request", &answer, &wanted).and_then(|()| requests::compare(sides, &request, ROOM));
        tally.add(&answer, check, || values_in_hex(&request));
    }
    tally
}

/// Requests by the default provider: all that the steps 21 to 27 look at, each as it passes and as it is refused.
fn requests() -> Vec<Request<'static>> {
    let hashes: Vec<_> = (0x8000..=0x8005).chain([0, 0x800C, 0x800E, 0x1_8001]).map(Some).collect();
    let all = vec![Request { default_provider: true, ..Request::default() }];
    let all = with(&all, &[None, Some(0), Some(1), Some(2), Some(3)], |r, privacy| r.privacy_level = privacy);
    let all = with(&all, &[None, Some(ALGORITHM)], |r, algorithm| r.encryption_algorithm = algorithm);
    let all = with(&all, &[&[None], &hashes[..]].concat(), |r, hash| r.hash_algorithm = hash);
    let all = with(&all, &[&b""[..], b"s", b"si"], |r, signature| r.signature = signature);
    let all = with(&all, &[None, Some(1), Some(3)], |r, number| r.split_number = number);
    let all = with(&all, &[false, true], |r, direct| r.direct_queue = direct);
    let all = with(&all, &[None, Some(3)], |r, kind| r.sender_kind = kind);
    with(&all, &[Some(1), None], |r, kind| r.provider_type = kind)
}

/// Each of `requests` with each of `values`.
fn with<T: Copy>(
    requests: &[Request<'static>],
    values: &[T],
    put: fn(&mut Request<'static>, T),
) -> Vec<Request<'static>> {
    let each = |&request: &Request<'static>| {
        values.iter().map(move |&value| {
            let mut request = request;
            put(&mut request, value);
            request
        })
    };
    requests.iter().flat_map(each).collect()
}

/// The first of the steps 21 to 27 that refuses one of these requests, 29 "right after 24"; else the section's length,
/// with 4 bytes for the signature.
fn wanted(request: &Request<'_>) -> Answer<usize> {
    let signed = !request.signature.is_empty();
    let privacy = request.privacy_level.unwrap_or(0);
    let steps = [
        (21, privacy == 3),
        (22, request.direct_queue && privacy != 0),
        (23, request.privacy_level.is_some() && request.encryption_algorithm.is_none()),
        (24, signed && request.hash_algorithm.is_none()),
        (29, is_retired(privacy, signed, request.hash_algorithm.unwrap_or(0))),
        (25, request.sender_kind == Some(3)),
        (26, signed && request.provider_type.is_none()),
        (27, signed && request.split_number == Some(3)),
    ];
    match steps.iter().find(|(_, fails)| *fails) {
        Some(&(number, _)) => Err(Refusal { number, place: 0 }),
        None => Ok(if signed { 16 + 4 + 56 } else { 56 }),
    }
}
