//! Queue format images: pairs, lengths, strings, and round trips.

use independent::generate::{image, image_values, Random, PAIRS};
use independent::queue::{read_image, write_image, Image, Value};
use independent::{number, Refusal};

fn refused<T>(number: u32) -> Result<T, Refusal> {
    Err(Refusal { number, place: 0 })
}

/// `units - 1` letters and a null.
fn text(units: usize) -> Vec<u8> {
    let mut bytes = [b'q', 0].repeat(units - 1);
    bytes.extend_from_slice(&[0, 0]);
    bytes
}

fn read_value(kind: u8, byte: u8, value: &[u8]) -> Result<Image<'static>, Refusal> {
    read_image([&[kind, byte, 1, 2], value].concat().leak())
}

#[test]
fn every_pair() {
    for kind in 0..=255 {
        for byte in 0..=255 {
            let answer = read_image(&[kind, byte, 0, 0]).map(|_| ()).map_err(|refusal| refusal.number);
            let passes = PAIRS.get(usize::from(kind)).map(|bytes| bytes.contains(&byte));
            match (passes, answer) {
                (None, Err(number::QUEUE_TYPE)) | (Some(false), Err(number::QUEUE_PAIR)) => {}
                (Some(true), Ok(())) => assert_eq!(kind, 0),
                (Some(true), Err(number::STRING)) => assert!(matches!(kind, 3 | 8)),
                (Some(true), Err(number::VALUE_LENGTH)) => assert!(!matches!(kind, 0 | 3 | 8)),
                other => panic!("type {kind}, byte {byte}: {other:?}"),
            }
        }
    }
}

#[test]
fn short_inputs_come_first() {
    for length in 0..4 {
        assert_eq!(read_image(&[9; 3][..length.min(3)]), refused(number::INPUT_SHORT));
    }
    assert_eq!(read_image(&[9, 0xFF, 0, 0]), refused(number::QUEUE_TYPE));
}

#[test]
fn values_of_fixed_length() {
    assert_eq!(read_value(0, 0x81, &[]).unwrap().value, Value::None);
    assert_eq!(read_value(0, 0x81, &[0]), refused(number::VALUE_LENGTH));
    for (kind, byte, length) in [(1, 0, 16), (2, 0, 20), (4, 0x81, 16), (5, 0x84, 16), (7, 0, 8)] {
        let value = [kind; 21];
        let image = read_value(kind, byte, &value[..length]).unwrap();
        assert_eq!((image.value.fixed(), image.value.text()), (&value[..length], &[][..]));
        for wrong in [0, length - 1, length + 1] {
            assert_eq!(read_value(kind, byte, &value[..wrong]), refused(number::VALUE_LENGTH));
            let mut out = [0x55; 40];
            assert_eq!(
                write_image(kind, byte, &value[..wrong], &[], &mut out),
                refused(number::VALUE_LENGTH)
            );
            assert_eq!(out, [0x55; 40]);
        }
        let mut out = [0x55; 40];
        assert_eq!(
            write_image(kind, byte, &value[..length], &[0, 0], &mut out),
            refused(number::VALUE_LENGTH)
        );
    }
}

#[test]
fn strings() {
    for kind in [3, 8] {
        for units in [2, 3, 1_023, 1_024] {
            assert_eq!(read_value(kind, 0, &text(units)).unwrap().value, Value::Text(&text(units)));
        }
        for wrong in [
            vec![],
            text(1),
            text(1_025),
            text(3)[1..].to_vec(),
            vec![1, 0, 2, 0],
            [text(2), text(2)].concat(),
        ] {
            assert_eq!(read_value(kind, 0, &wrong), refused(number::STRING));
            assert_eq!(write_image(kind, 0, &[], &wrong, &mut [0; 3_000]), refused(number::STRING));
        }
        assert_eq!(write_image(kind, 0, &[1], &text(2), &mut [0; 40]), refused(number::VALUE_LENGTH));
    }
}

#[test]
fn distribution_lists() {
    let guid = [7; 16];
    let value = |text: &[u8]| [&guid, text].concat();
    for units in [1, 2, 1_024] {
        let image = read_value(6, 0, &value(&text(units))).unwrap();
        assert_eq!(image.value, Value::GuidAndText(&guid, &text(units)));
    }
    for short in [&guid[..], &guid[..15], &[], &value(&[0])] {
        assert_eq!(read_value(6, 0, short), refused(number::VALUE_LENGTH));
    }
    for wrong in [&[0, 0, 0][..], &[1, 0], &[0, 0, 0, 0], &text(1_025)] {
        assert_eq!(read_value(6, 0, &value(wrong)), refused(number::STRING));
        assert_eq!(write_image(6, 0, &guid, wrong, &mut [0; 3_000]), refused(number::STRING));
    }
    for (fixed, text) in [(&guid[..15], &[0, 0][..]), (&guid, &[]), (&guid, &[0])] {
        assert_eq!(write_image(6, 0, fixed, text, &mut [0; 40]), refused(number::VALUE_LENGTH));
    }
}

#[test]
fn the_output_is_judged_last_and_reserved_bytes_are_zero() {
    let mut out = [0x55; 9];
    assert_eq!(write_image(3, 0, &[], b"q\0\0\0", &mut out[..7]), refused(number::OUTPUT_SHORT));
    assert_eq!(write_image(3, 0, &[], b"q\0q\0", &mut out[..7]), refused(number::STRING));
    assert_eq!(out, [0x55; 9]);
    assert_eq!(write_image(3, 0, &[], b"q\0\0\0", &mut out), Ok(8));
    assert_eq!(&out, b"\x03\0\0\0q\0\0\0\x55");
}

#[test]
fn what_is_read_is_written_with_reserved_bytes_zero() {
    let mut r = Random::new(21);
    for _ in 0..50_000 {
        let mut input = image(&mut r);
        let Ok(Image { kind, suffix_and_flags, value }) = read_image(&input) else { continue };
        let mut out = vec![0x55; input.len() + 2];
        let answer = write_image(kind, suffix_and_flags, value.fixed(), value.text(), &mut out);
        assert_eq!(answer, Ok(input.len()));
        input[2..4].fill(0);
        input.extend_from_slice(&[0x55; 2]);
        assert_eq!(out, input);
    }
}

#[test]
fn what_is_written_is_read() {
    let mut r = Random::new(22);
    for _ in 0..50_000 {
        let values = image_values(&mut r);
        let mut out = vec![0x55; values.room];
        match write_image(values.kind, values.suffix_and_flags, &values.fixed, &values.text, &mut out) {
            Ok(length) => {
                let image = read_image(&out[..length]).unwrap();
                assert_eq!((image.kind, image.suffix_and_flags), (values.kind, values.suffix_and_flags));
                assert_eq!((image.value.fixed(), image.value.text()), (&values.fixed[..], &values.text[..]));
                assert!(out[length..].iter().all(|&byte| byte == 0x55));
            }
            Err(_) => assert!(out.iter().all(|&byte| byte == 0x55)),
        }
    }
}
