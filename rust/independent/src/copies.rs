//! The program for support staff: a section or a day file in, the same out with each section replaced by its support copy.
//!
//! "A record whose section is refused can't be copied: it is left out and reported .. with its number, refusal and
//! place; bytes behind a section in its record are private and do not go out. .. Bad or cut files end as the listing's
//! `stop` does, said on standard error."

use crate::listing::{ended_by, section_length, HEAD};
use crate::{support_copy, Refusal};

/// The most bytes of a single section's input.
pub const INPUT_MOST: usize = 3_145_728;

/// What the program writes to standard output, and what it says on standard error.
#[derive(Debug, Clone, Default, PartialEq, Eq)]
pub struct Copies {
    /// Standard output.
    pub output: Vec<u8>,
    /// Standard error.
    pub said: String,
}

/// The copy of a day file.
pub fn copy_day(file: &[u8]) -> Copies {
    copy_day_by(copied, file)
}

/// The copy of one section.
pub fn copy_section(input: &[u8], security_first: bool) -> Copies {
    if input.len() > INPUT_MOST {
        let said = format!(
            "the input is longer than {INPUT_MOST} bytes, and this program reads no more; a section has at most 4,194,304\n"
        );
        return Copies { output: vec![], said };
    }
    match copy(input, security_first) {
        Ok(output) => Copies { output, said: String::new() },
        Err(refusal) => Copies { output: vec![], said: refused(refusal) },
    }
}

/// [`copy_day`] with the records copied by `record`, which takes a section and whether a SecurityHeader stands first.
pub(crate) fn copy_day_by(record: impl Fn(&[u8], bool) -> Result<Vec<u8>, Refusal>, file: &[u8]) -> Copies {
    let mut copies = Copies::default();
    let (mut copied, mut left_out) = (0, 0);
    let mut rest = file;
    loop {
        let number = copied + left_out;
        match ended_by(rest) {
            None => {}
            Some("end") => break,
            Some(_) => {
                copies.said += &format!("record {number}: wrong or cut, stopped\n");
                break;
            }
        }
        let (head, behind) = rest.split_at(HEAD);
        let (section, behind) = behind.split_at(section_length(head));
        match record(section, head[2] == 1) {
            Ok(bytes) => {
                copies.output.extend(bytes);
                copied += 1;
            }
            Err(refusal) => {
                copies.said += &format!("record {number}: {}", refused(refusal));
                left_out += 1;
            }
        }
        rest = behind;
    }
    copies.said += &format!("copied {copied}, left out {left_out}\n");
    copies
}

/// The record of a section's copy: its head has the copy's length.
pub(crate) fn copied(section: &[u8], security_first: bool) -> Result<Vec<u8>, Refusal> {
    copy(section, security_first).map(|copy| with_head(&copy, copy.len(), security_first))
}

/// A record of these bytes, with this length in its head.
pub(crate) fn with_head(bytes: &[u8], length: usize, security_first: bool) -> Vec<u8> {
    let mut record = vec![0x57, 0x52, u8::from(security_first), 0];
    record.extend((length as u32).to_le_bytes());
    record.extend(bytes);
    record
}

/// The support copy.
pub(crate) fn copy(section: &[u8], security_first: bool) -> Result<Vec<u8>, Refusal> {
    let mut copy = vec![0; section.len()];
    let length = support_copy(section, security_first, &mut copy)?;
    copy.truncate(length);
    Ok(copy)
}

fn refused(refusal: Refusal) -> String {
    format!("refused {} at {}\n", refusal.number, refusal.place)
}
