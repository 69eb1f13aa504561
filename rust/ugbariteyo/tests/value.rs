//! Bodies that are a single number: each kind, read from a section and from the body alone, and written again byte for
//! byte, floats of every pattern too; what is refused, in its order; and the example, on the samples.

use std::collections::BTreeSet;
use std::ffi::OsString;
use std::fs;
use std::hash::{DefaultHasher, Hash, Hasher};

use ugbariteyo::{
    read, read_value, value_of, write_section_vec, write_value, write_value_vec, BodyValue, First, Kind,
    Refusal, SectionValues, SecurityFlags,
};

use BodyValue::{F32, F64, I32, U32};
use First::{PropertiesHeader, SecurityHeader};

#[allow(dead_code)] // its main
#[path = "../examples/read_value.rs"]
mod example;

#[allow(dead_code)] // what the other tests take
#[path = "given/section.rs"]
mod given_section;

use given_section::{full_section, refused, with_output};

const EB: u8 = SecurityFlags::EB as u8;

/// The four types, and the size of each.
const TYPES: [(u32, usize); 4] = [(3, 4), (19, 4), (4, 4), (5, 8)];

/// Types beside the four, and those that are one of them in some of their bits.
const OTHERS: [u32; 16] = [
    0, 1, 2, 6, 8, 18, 20, 259, 275, 0x10003, 0x10005, 0x03000000, 0x13000000, 0x80000003, 0x80000013,
    0xFFFFFFFF,
];

const BODY_TYPE: Refusal = Refusal { number: 60, place: 0 };
const BODY_SIZE: Refusal = Refusal { number: 61, place: 0 };
const BODY_ENCRYPTED: Refusal = Refusal { number: 62, place: 0 };

/// A section with this body behind parts that leave it at no even place.
fn section(first: First, body_type: u32, body: &[u8]) -> Vec<u8> {
    let values = SectionValues {
        first,
        security_flags: SecurityFlags(SecurityFlags::DP),
        body_type,
        allocation_body_size: body.len(),
        sender_cert: b"cert",
        label: b"a\0\0\0",
        extension: b"ext",
        body,
        ..SectionValues::default()
    };
    write_section_vec(&values).unwrap()
}

/// What every reader says of this body: of its section, whichever header stands first, with and without bytes behind
/// it; of what was read of that; and of the body alone.
#[track_caller]
fn answer(body_type: u32, body: &[u8]) -> Result<BodyValue, Refusal> {
    let answer = value_of(body_type, body);
    for first in [SecurityHeader, PropertiesHeader] {
        let section = section(first, body_type, body);
        for input in [&section, &[&section[..], b"behind"].concat()] {
            assert_eq!(read_value(input, first), answer);
            assert_eq!(read(input, first).unwrap().body_value(), answer);
        }
    }
    answer
}

/// The body is this number, which is written as this body to every output that has room for it.
#[track_caller]
fn is_number(value: BodyValue, body: &[u8]) {
    assert_eq!(answer(value.body_type(), body), Ok(value));
    assert_eq!((value.size(), write_value_vec(value)), (body.len(), body.to_vec()));
    for room in 0..=10 {
        let written = with_output(room, |out| write_value(value, out));
        let has_room = room >= body.len();
        assert_eq!(written, has_room.then(|| body.to_vec()).ok_or(refused(Kind::OutputShort, 0)));
    }
}

#[test]
fn numbers_and_their_bodies() {
    is_number(I32(i32::MIN), &[0, 0, 0, 0x80]);
    is_number(I32(-1), &[0xFF; 4]);
    is_number(I32(0), &[0; 4]);
    is_number(I32(i32::MAX), &[0xFF, 0xFF, 0xFF, 0x7F]);
    is_number(U32(u32::MAX), &[0xFF; 4]);
    is_number(U32(0x8000_0000), &[0, 0, 0, 0x80]);
    is_number(U32(0x0403_0201), &[1, 2, 3, 4]);
    is_number(F32(0.0), &[0; 4]);
    is_number(F32(-0.0), &[0, 0, 0, 0x80]);
    is_number(F32(-1.5), &[0, 0, 0xC0, 0xBF]);
    is_number(F32(f32::INFINITY), &[0, 0, 0x80, 0x7F]);
    is_number(F32(f32::NEG_INFINITY), &[0, 0, 0x80, 0xFF]);
    is_number(F32(f32::MIN_POSITIVE), &[0, 0, 0x80, 0]);
    is_number(F32(f32::MAX), &[0xFF, 0xFF, 0x7F, 0x7F]);
    is_number(F64(0.0), &[0; 8]);
    is_number(F64(-0.0), &[0, 0, 0, 0, 0, 0, 0, 0x80]);
    is_number(F64(-1.5), &[0, 0, 0, 0, 0, 0, 0xF8, 0xBF]);
    is_number(F64(f64::INFINITY), &[0, 0, 0, 0, 0, 0, 0xF0, 0x7F]);
    is_number(F64(f64::NEG_INFINITY), &[0, 0, 0, 0, 0, 0, 0xF0, 0xFF]);
    is_number(F64(f64::MIN_POSITIVE), &[0, 0, 0, 0, 0, 0, 0x10, 0]);
    is_number(F64(f64::MAX), &[0xFF, 0xFF, 0xFF, 0xFF, 0xFF, 0xFF, 0xEF, 0x7F]);
}

/// Zero, subnormals, normals and infinity, then NaNs with payloads, signalling and quiet ones.
const PATTERNS: [u32; 14] = [
    0, 1, 0x007FFFFF, 0x00800000, 0x3F800000, 0x7F7FFFFF, 0x7F800000, 0x7F800001, 0x7FA5A5A5, 0x7FBFFFFF,
    0x7FC00000, 0x7FC00001, 0x7FD5A5A5, 0x7FFFFFFF,
];
const LONG_PATTERNS: [u64; 16] = [
    0,
    1,
    0x000F_FFFF_FFFF_FFFF,
    0x0010_0000_0000_0000,
    0x3FF0_0000_0000_0000,
    0x7FEF_FFFF_FFFF_FFFF,
    0x7FF0_0000_0000_0000,
    0x7FF0_0000_0000_0001,
    0x7FF0_0000_FFFF_FFFF,
    0x7FF5_A5A5_A5A5_A5A5,
    0x7FF7_FFFF_FFFF_FFFF,
    0x7FF8_0000_0000_0000,
    0x7FF8_0000_0000_0001,
    0x7FFD_A5A5_A5A5_A5A5,
    0x7FFF_FFFF_FFFF_FFFF,
    0x0102_0304_0506_0708,
];

/// Each pattern of either sign.
fn patterns() -> impl Iterator<Item = u32> {
    PATTERNS.into_iter().flat_map(|bits| [bits, bits ^ 1 << 31])
}

fn long_patterns() -> impl Iterator<Item = u64> {
    LONG_PATTERNS.into_iter().flat_map(|bits| [bits, bits ^ 1 << 63])
}

/// The three numbers of 4 bytes that have these bits.
fn short_values(bits: u32) -> [BodyValue; 3] {
    [I32(bits as i32), U32(bits), F32(f32::from_bits(bits))]
}

#[test]
fn every_pattern_is_kept() {
    for bits in patterns() {
        for value in short_values(bits) {
            assert_eq!(value.bits(), bits.into());
            is_number(value, &bits.to_le_bytes());
        }
    }
    for bits in long_patterns() {
        let value = F64(f64::from_bits(bits));
        assert_eq!(value.bits(), bits);
        is_number(value, &bits.to_le_bytes());
    }
}

#[test]
fn any_pattern_is_kept() {
    let mut random: u64 = 1;
    for _ in 0..5_000 {
        random = random.wrapping_mul(6_364_136_223_846_793_005).wrapping_add(1_442_695_040_888_963_407);
        let bits = (random >> 32) as u32;
        short_values(bits).into_iter().for_each(|value| is_number(value, &bits.to_le_bytes()));
        is_number(F64(f64::from_bits(random)), &random.to_le_bytes());
    }
}

fn hash(of: impl Hash) -> u64 {
    let mut hasher = DefaultHasher::new();
    of.hash(&mut hasher);
    hasher.finish()
}

/// No two of these are equal, and each NaN equals itself.
#[test]
fn values_are_equal_by_kind_and_bits() {
    let short = patterns().flat_map(short_values);
    let values: Vec<_> = short.chain(long_patterns().map(|bits| F64(f64::from_bits(bits)))).collect();
    for (number, value) in values.iter().enumerate() {
        for (other_number, other) in values.iter().enumerate() {
            assert_eq!(value == other, number == other_number, "{value:?} and {other:?}");
            assert_eq!(hash(value) == hash(other), number == other_number, "{value:?} and {other:?}");
        }
    }
    assert_eq!(
        TYPES.map(|(body_type, _)| body_type),
        [I32(1), U32(1), F32(1.0), F64(1.0)].map(|value| value.body_type())
    );
    assert_eq!(format!("{:?}", [I32(-1), F64(-12.625)]), "[I32(-1), F64(-12.625)]");
}

#[test]
fn other_types() {
    for body_type in OTHERS {
        for size in 0..=10 {
            assert_eq!(answer(body_type, &[9; 10][..size]), Err(BODY_TYPE), "type {body_type}, {size} bytes");
        }
    }
    for body_type in (0..=0xFFFF).filter(|body_type| ![3, 4, 5, 19].contains(body_type)) {
        assert_eq!([4, 8].map(|size| value_of(body_type, &[9; 8][..size])), [Err(BODY_TYPE); 2]);
    }
}

/// Those too that are 4 or 8 in their lowest byte or two.
#[test]
fn other_sizes() {
    let sizes = (0..=20).chain([260, 264, 0x8004, 65_540, 65_544, 0x4_0004, 0x20_0008]);
    for (size, (body_type, its_size)) in sizes.flat_map(|size| TYPES.map(|of_type| (size, of_type))) {
        let answer = answer(body_type, &vec![9; size]);
        assert_eq!(answer.err(), (size != its_size).then_some(BODY_SIZE), "type {body_type}, {size} bytes");
    }
}

#[test]
fn the_allocation_says_nothing() {
    for (body_type, size) in TYPES {
        for allocation in [8_u32, 9, 260, 4_194_304] {
            let [four, eight] = [4, 8].map(|body| {
                let mut section = section(PropertiesHeader, body_type, &[9; 8][..body]);
                section[36..40].copy_from_slice(&allocation.to_le_bytes());
                read_value(&section, PropertiesHeader)
            });
            let (number, other) = if size == 4 { (four, eight) } else { (eight, four) };
            assert_eq!((number.map(|value| value.body_type()), other), (Ok(body_type), Err(BODY_SIZE)));
        }
    }
}

/// EB comes before the type, and that before the size; of the body alone there is no EB.
#[test]
fn an_encrypted_body_is_no_number() {
    let types = [3, 19, 4, 5].into_iter().chain(OTHERS);
    for (body_type, size) in types.flat_map(|body_type| (0..=10).map(move |size| (body_type, size))) {
        let mut section = section(SecurityHeader, body_type, &[9; 10][..size]);
        section[0] |= EB;
        let reading = read(&section, SecurityHeader).unwrap();
        assert!(reading.security_flags().body_encrypted());
        assert_eq!(read_value(&section, SecurityHeader), Err(BODY_ENCRYPTED));
        assert_eq!(reading.body_value(), Err(BODY_ENCRYPTED));
        assert_ne!(value_of(reading.body_type(), reading.body()), Err(BODY_ENCRYPTED));
    }
}

#[test]
fn without_a_security_header_there_is_no_eb() {
    let mut section = section(PropertiesHeader, 3, &[7, 0, 0, 0]);
    section[0] = 0xFF;
    section[40] = 5; // PrivacyLevel
    assert_eq!(read_value(&section, PropertiesHeader), Ok(I32(7)));
}

/// What follows from reading the section.
fn as_read(input: &[u8], first: First) -> Result<BodyValue, Refusal> {
    let section = read(input, first)?;
    match section.security_flags().body_encrypted() {
        true => Err(BODY_ENCRYPTED),
        false => value_of(section.body_type(), section.body()),
    }
}

/// Whatever bit is wrong, and wherever the input ends, the section's own refusal comes first: in a section with a
/// number, and in one that is refused for its body in every way.
#[test]
fn the_sections_refusals_come_first() {
    let mut number = full_section();
    number[0] &= !EB;
    number[56 + 24] = 3;
    number[56 + 32] = 4;
    assert_eq!(read_value(&number, SecurityHeader), Ok(I32(i32::from_le_bytes(*b"B???"))));
    let mut given = BTreeSet::new();
    for bytes in [number, full_section()] {
        for (at, bit) in (0..bytes.len()).flat_map(|at| (0..8).map(move |bit| (at, bit))) {
            let mut other = bytes.clone();
            other[at] ^= 1 << bit;
            let answer = read_value(&other, SecurityHeader);
            assert_eq!(answer, as_read(&other, SecurityHeader), "byte {at}, bit {bit}");
            given.extend(answer.err().map(|refusal| refusal.number));
            assert_eq!(read_value(&other, PropertiesHeader), as_read(&other, PropertiesHeader));
        }
        for end in 0..bytes.len() {
            assert_eq!(read_value(&bytes[..end], SecurityHeader), as_read(&bytes[..end], SecurityHeader));
        }
    }
    // 9 takes two bits
    assert!(given.into_iter().eq((1..=12).filter(|number| *number != 9).chain(60..=62)));
}

#[test]
fn refusals_in_words() {
    let words = [BODY_TYPE, BODY_SIZE, BODY_ENCRYPTED].map(|refusal| refusal.to_string());
    assert_eq!(words[0], "refused with 60 at 0: BodyType none of 3, 4, 5 and 19");
    assert_eq!(words[1], "refused with 61 at 0: MessageSize not 4, or not 8 for BodyType 5");
    assert_eq!(words[2], "refused with 62 at 0: EB set");
}

/// A file of the repository.
fn file(name: &str) -> String {
    format!("{}/../../{name}", env!("CARGO_MANIFEST_DIR"))
}

/// What the example writes of a file, or why it writes nothing.
fn shown(args: &[&str]) -> Result<String, String> {
    let args: Vec<_> = args.iter().map(OsString::from).collect();
    let mut out = vec![];
    example::show_file(&args, &mut out).map_err(|why| {
        assert_eq!(out, [], "nothing is shown");
        why.to_string()
    })?;
    Ok(String::from_utf8(out).expect("the example writes text"))
}

/// As the one in C does. The sample is what it sends of its number.
#[test]
fn the_example_reads_the_sample() {
    let (flux, encrypted) = (file("samples/flux.bin"), file("samples/section.bin"));
    let in_c = fs::read_to_string(file("examples/c/value.txt")).expect("the file is in the repository");
    let read = in_c.lines().take(3).map(|line| format!("{line}\n")).collect();
    assert_eq!(shown(&[&flux]), Ok(read));
    let sent = example::send_value(F64(-12.625)).unwrap();
    assert_eq!(sent, (fs::read(&flux).expect("the file is in the repository"), PropertiesHeader));

    let why = |args: &[&str]| shown(args).unwrap_err();
    assert_eq!(why(&["security", &flux]), "refused with 3 at 0: AU or AS not zero");
    assert_eq!(why(&["security", &encrypted]), BODY_ENCRYPTED.to_string());
    assert_eq!(why(&[]), "usage: read_value [security] FILE");
    assert!(why(&[&file("samples/none")]).contains("No such file"));
}

#[test]
fn the_example_shows_every_kind() {
    for (value, shown) in [
        (I32(i32::MIN), "BodyType 3, -2147483648 (0x80000000)"),
        (U32(u32::MAX), "BodyType 19, 4294967295 (0xffffffff)"),
        (F32(-0.0), "BodyType 4, -0 (0x80000000)"),
        (F64(f64::from_bits(0x7FF0_0000_0000_0001)), "BodyType 5, NaN (0x7ff0000000000001)"),
    ] {
        let (section, first) = example::send_value(value).unwrap();
        let mut out = vec![];
        example::show(&section, first, &mut out).unwrap();
        let lines = format!("read: {shown}\nsent: {} bytes\nread back: {shown}\n", section.len());
        assert_eq!(String::from_utf8(out), Ok(lines));
    }
}
