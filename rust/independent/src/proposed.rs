//! Support copies that others have made (C-24): whether a proposed one is the one that 01 fixes.

use crate::bytes::padded;
use crate::read;
use crate::section::{Parts, Properties, Security, SECURITY_FIXED};

/// Whether the section at the start of `input` is accepted and `copy` is byte for byte its support copy,
/// in the section's own length. "Else no, for a refused section too."
pub fn is_support_copy(input: &[u8], security_first: bool, copy: &[u8]) -> bool {
    let Ok(section) = read(input, security_first) else { return false };
    let summary = section.summary;
    if copy.len() != summary.length {
        return false;
    }
    let mut left = Left { section: &input[..summary.length], copy };
    summary.security.is_none_or(|header| left.has_security(&header, &summary.parts))
        && left.has_properties(&summary.properties)
}

/// What is left to look at of a section, and of a copy as long as it.
struct Left<'a> {
    section: &'a [u8],
    copy: &'a [u8],
}

impl<'a> Left<'a> {
    /// Goes over so many bytes of both.
    fn next(&mut self, bytes: usize) -> (&'a [u8], &'a [u8]) {
        let (section, copy) = (self.section.split_at(bytes), self.copy.split_at(bytes));
        (self.section, self.copy) = (section.1, copy.1);
        (section.0, copy.0)
    }

    /// Goes over judged bytes: the copy has the section's.
    fn judged(&mut self, bytes: usize) -> bool {
        let (section, copy) = self.next(bytes);
        section == copy
    }

    /// Goes over private bytes: they are zero in the copy. The fold looks at every byte, which is what
    /// lets it look at many at a time.
    fn private(&mut self, bytes: usize) -> bool {
        let (_, copy) = self.next(bytes);
        copy.iter().fold(0, |bits, byte| bits | byte) == 0
    }

    /// Goes over a byte whose high four bits are X bits.
    fn below_x(&mut self) -> bool {
        let (section, copy) = self.next(1);
        copy[0] == section[0] & 0x0F
    }

    /// Goes over a SecurityHeader: identity to certificate are private, but the first two bytes of an
    /// identity of kind 1.
    fn has_security(&mut self, header: &Security<'_>, parts: &Parts) -> bool {
        let sid = if header.flags.sender_kind() == 1 { 2 } else { 0 };
        let provider = parts.provider;
        self.judged(1)
            && self.below_x()
            && self.judged(SECURITY_FIXED - 2)
            && self.judged(sid)
            && self.private(provider.start - SECURITY_FIXED - sid)
            && self.judged(provider.length)
            && self.private(padded(provider.length as u64) as usize - provider.length)
    }

    /// Goes over a MessagePropertiesHeader to the section's end.
    fn has_properties(&mut self, header: &Properties<'_>) -> bool {
        self.below_x()
            && self.judged(3) // LabelLength, MessageClass
            && self.private(20) // CorrelationID
            && self.judged(4) // BodyType
            && self.private(4) // ApplicationTag
            && self.judged(24) // the body's sizes to ExtensionSize
            && self.judged(header.label.len())
            && self.private(self.section.len())
    }
}
