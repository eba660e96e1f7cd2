use std::fmt;

/// The exponents of the classes: chunks have 32 bytes in the least one, and 65,536 in the greatest.
const EXPONENTS: std::ops::RangeInclusive<u8> = 5..=16;

/// The name of a chunk: the exponent of its class, and its index in that class.
///
/// A handle is no address, and it names the same chunk before a log and after a restore of it. A handle whose chunk was freed, or
/// undone by a restore, is dead until a later chunk gets the same. Nil, which the header writes as two zeros, is `None` of
/// `Option<Handle>`.
///
/// Handles are ordered by exponent and then by index, as [`Object::chunks`](crate::Object::chunks) tells them, and are written as in
/// scripts, as `64:0`: the bytes of the class, and the index.
#[derive(Clone, Copy, Debug, PartialEq, Eq, PartialOrd, Ord, Hash)]
pub struct Handle {
    exponent: u8,
    index: u32,
}

impl Handle {
    /// The handle of an exponent and an index; `None` where no class has that exponent, 5 to 16.
    pub fn new(exponent: u8, index: u32) -> Option<Handle> {
        EXPONENTS
            .contains(&exponent)
            .then_some(Handle { exponent, index })
    }

    /// The exponent of the class, whose chunks have room for `1 << exponent` bytes.
    pub fn exponent(self) -> u8 {
        self.exponent
    }

    /// The index in the class.
    pub fn index(self) -> u32 {
        self.index
    }

    /// The number that stands for the handle in a chunk's bytes: `exponent * 2^32 + index`, the least byte first.
    pub fn number(self) -> u64 {
        u64::from(self.exponent) << 32 | u64::from(self.index)
    }

    /// The handle of a number; `None` where its exponent is that of no class, as that of 0, which stands for nil.
    pub fn from_number(number: u64) -> Option<Handle> {
        let exponent = u8::try_from(number >> 32).ok()?;
        Handle::new(exponent, number as u32)
    }
}

impl fmt::Display for Handle {
    fn fmt(&self, f: &mut fmt::Formatter<'_>) -> fmt::Result {
        write!(f, "{}:{}", 1u32 << self.exponent, self.index)
    }
}
