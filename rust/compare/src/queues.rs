//! Queue format images read and written by both sides.

use independent::generate::{image, image_values, ImageValues, Random};
use independent::neighbours::{self, List};
use independent::queue::HEAD;

use crate::lend::{lend, Written};
use crate::report::{agree, hex, values_in_hex, Check, Tally};
use crate::sections::SHORT;
use crate::side::{Image, Side, Sides};

/// Compares generated images, after every pair of type and suffix byte.
pub fn run_reading(sides: Sides<'_>, cases: u64, r: &mut Random) -> Tally {
    let mut tally = Tally::with_neighbours("queue images read", List::ImageRead);
    for kind in 0..=u8::MAX {
        for suffix_and_flags in 0..=u8::MAX {
            let (fixed, text) = value_of(kind);
            add_image(&mut tally, sides, &[&[kind, suffix_and_flags, 7, 9], fixed, text].concat());
        }
    }
    for _ in 0..cases {
        add_image(&mut tally, sides, &image(r));
    }
    tally
}

/// Compares generated values, after every pair of type and suffix byte.
pub fn run_writing(sides: Sides<'_>, cases: u64, r: &mut Random) -> Tally {
    let mut tally = Tally::with_neighbours("queue values written", List::ImageWritten);
    for kind in 0..=u8::MAX {
        for suffix_and_flags in 0..=u8::MAX {
            let (fixed, text) = value_of(kind);
            let (fixed, text) = (fixed.to_vec(), text.to_vec());
            add_values(&mut tally, sides, &ImageValues { kind, suffix_and_flags, fixed, text, room: 40 });
        }
    }
    for _ in 0..cases {
        add_values(&mut tally, sides, &image_values(r));
    }
    tally
}

/// A value that goes with a type: its fixed bytes and its string.
fn value_of(kind: u8) -> (&'static [u8], &'static [u8]) {
    match kind {
        1 | 4 | 5 => (&[0x11; 16], &[]),
        2 => (&[0x22; 20], &[]),
        3 | 8 => (&[], b"q\0\0\0"),
        6 => (&[0x66; 16], b"l\0\0\0"),
        7 => (&[0x77; 8], &[]),
        _ => (&[], &[]),
    }
}

fn add_image(tally: &mut Tally, sides: Sides<'_>, input: &[u8]) {
    let check = compare_image(sides, input);
    tally.add(&sides.one.read_image(input), check, || hex(input));
    tally.meet_neighbours(neighbours::image_read(input));
}

/// Reads the image with both sides; written again by the one, it is the same with the reserved bytes zero.
fn compare_image(sides: Sides<'_>, input: &[u8]) -> Check {
    let Ok(image) = sides.both("the image", |side| side.read_image(input))? else { return Ok(()) };
    let mut wanted = input.to_vec();
    wanted[2..HEAD].fill(0);
    write_again(sides.one, &image, input.len()).is("the image written again", &Ok(&wanted))
}

fn write_again(side: &dyn Side, image: &Image<'_>, room: usize) -> Written {
    let format = [image.kind, image.suffix_and_flags];
    lend(room, |out| side.write_image(format, image.value.fixed(), image.value.text(), out))
}

fn add_values(tally: &mut Tally, sides: Sides<'_>, values: &ImageValues) {
    let check = compare_values(sides, values);
    let answer = write(sides.one, values, values.room).answer;
    tally.add(&answer, check, || values_in_hex(values));
    let ImageValues { fixed, text, room, .. } = values;
    let format = [values.kind, values.suffix_and_flags];
    tally.meet_neighbours(neighbours::image_written(format, fixed, text, *room));
}

fn write(side: &dyn Side, values: &ImageValues, room: usize) -> Written {
    let format = [values.kind, values.suffix_and_flags];
    lend(room, |out| side.write_image(format, &values.fixed, &values.text, out))
}

/// Writes the values with both sides; what the one wrote has to read back as them.
fn compare_values(sides: Sides<'_>, values: &ImageValues) -> Check {
    let written = sides.both("the image written", |side| write(side, values, values.room))?;
    written.rest_stays()?;
    let length = match written.answer {
        Ok(length) => length,
        Err(SHORT) => HEAD + values.fixed.len() + values.text.len(),
        Err(_) => return Ok(()),
    };
    let exact = sides.both("the image in its own length", |side| write(side, values, length))?;
    agree("its own length is room enough", &exact.answer, &Ok(length))?;
    let short = sides.both("the image a byte short", |side| write(side, values, length - 1))?;
    short.is("the image a byte short", &Err(SHORT))?;
    let read = sides.one.read_image(&exact.out).map(|image| {
        (image.kind, image.suffix_and_flags, image.value.fixed().to_vec(), image.value.text().to_vec())
    });
    let wanted = (values.kind, values.suffix_and_flags, values.fixed.clone(), values.text.clone());
    agree("what is written reads back", &read, &Ok(wanted))
}
