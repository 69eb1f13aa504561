//! Bodies of a single number read and written otherwise than C-16 says.

mod read;
mod write;

pub use read::{read_value, value_of, WrongValue};
pub use write::{write_value, WrongWriting};

use crate::value::Value;

/// Wrong numbers of the right bytes, read or written.
#[derive(Debug, Clone, Copy, PartialEq, Eq)]
pub enum WrongNumber {
    /// The first byte is the highest.
    BigEndian,
    /// The halves of 8 bytes are exchanged.
    HalvesExchanged,
    /// A signalling NaN is made quiet.
    Quieted,
    /// Every NaN becomes the one without sign and payload.
    OneNan,
    /// A NaN loses its sign.
    NanUnsigned,
    /// -0.0 becomes 0.0.
    ZeroUnsigned,
    /// A subnormal float becomes a zero of its sign.
    Flushed,
    /// A 64-bit float goes through a 32-bit one.
    Narrowed,
    /// An integer goes through a 32-bit float.
    ThroughFloat,
}

/// The bits of a float: its sign, its exponent, and the first of its fraction, which a quiet NaN has set.
struct Layout {
    sign: u64,
    exponent: u64,
    quiet: u64,
}

/// The layouts of 4 bytes and of 8.
const SINGLE: Layout = Layout { sign: 1 << 31, exponent: 0xFF << 23, quiet: 1 << 22 };
const DOUBLE: Layout = Layout { sign: 1 << 63, exponent: 0x7FF << 52, quiet: 1 << 51 };

impl WrongNumber {
    /// All of them.
    pub const ALL: [Self; 9] = [
        Self::BigEndian,
        Self::HalvesExchanged,
        Self::Quieted,
        Self::OneNan,
        Self::NanUnsigned,
        Self::ZeroUnsigned,
        Self::Flushed,
        Self::Narrowed,
        Self::ThroughFloat,
    ];

    fn of(self, right: Value) -> Value {
        let bits = right.bits();
        let wrong = match (self, right) {
            (Self::BigEndian, _) => bits.swap_bytes() >> (64 - 8 * right.size()),
            (Self::HalvesExchanged, Value::F64(_)) => bits.rotate_left(32),
            (Self::Narrowed, Value::F64(number)) => f64::from(number as f32).to_bits(),
            (Self::ThroughFloat, Value::I32(number)) => u64::from(number as f32 as i32 as u32),
            (Self::ThroughFloat, Value::U32(number)) => u64::from(number as f32 as u32),
            (_, Value::F32(_)) => self.of_float(bits, &SINGLE),
            (_, Value::F64(_)) => self.of_float(bits, &DOUBLE),
            _ => bits,
        };
        Value::new(right.body_type(), wrong).expect("the type of a value")
    }

    fn of_float(self, bits: u64, layout: &Layout) -> u64 {
        let Layout { sign, exponent, quiet } = *layout;
        let is_nan = bits & !sign > exponent;
        match self {
            Self::Quieted if is_nan => bits | quiet,
            Self::OneNan if is_nan => exponent | quiet,
            Self::NanUnsigned if is_nan => bits & !sign,
            Self::ZeroUnsigned if bits == sign => 0,
            Self::Flushed if bits & exponent == 0 => bits & sign,
            _ => bits,
        }
    }
}
