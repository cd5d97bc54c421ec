//! Window entries.

/// Which formats with which buffers are listed at a depth: a bit for each value of an entry's low four bits.
const LISTED_16: u32 = 0b001_0111_0111;
const LISTED_32: u32 = 0b111_1111_1111;

/// How many banks the colour map has.
const BANKS: u32 = 18;

/// A window entry that is defined.
#[derive(Clone, Copy)]
pub struct Entry(u16);

impl Entry {
    /// Fills room that no entry was put into.
    pub const NONE: Self = Self(0);

    /// None where the entry isn't defined at the depth.
    pub fn new(word: u32, depth: u32) -> Option<Self> {
        let listed = if depth == 16 { LISTED_16 } else { LISTED_32 };
        let (spare, in_bank) = (word >> 11 & 3, word >> 1 & 7 != 0 || word >> 4 & 31 < BANKS);
        (spare == 0 && listed >> (word & 15) & 1 == 1 && in_bank).then_some(Self(word as u16))
    }

    /// Whether the sample is in the high half of a pixel.
    pub fn high_half(self) -> bool {
        self.0 & 1 == 1
    }

    /// The format, by its number.
    pub fn format(self) -> u16 {
        self.0 >> 1 & 7
    }

    /// The bank of an index of 8 bits.
    pub fn bank(self) -> usize {
        usize::from(self.0 >> 4 & 31)
    }

    /// Whether gamma is bypassed.
    pub fn bypass(self) -> bool {
        self.0 >> 9 & 1 == 1
    }

    /// Whether overlay is allowed.
    pub fn overlay(self) -> bool {
        self.0 >> 10 & 1 == 1
    }
}
