//! From window entry and sample to colour.

use super::colour::defined;
use super::store::Store;

#[derive(Clone, Copy)]
enum Format {
    Index8,
    Index12,
    Rgb332,
    Rgb444,
    Rgb555,
    Rgb888,
}

impl Format {
    fn new(number: u32) -> Option<Self> {
        Some(match number {
            0 => Self::Index8,
            1 => Self::Index12,
            2 => Self::Rgb332,
            3 => Self::Rgb444,
            4 => Self::Rgb555,
            5 => Self::Rgb888,
            _ => return None,
        })
    }

    /// How many bits of a sample are used.
    fn bits(self) -> u32 {
        match self {
            Self::Index8 | Self::Rgb332 => 8,
            Self::Index12 | Self::Rgb444 => 12,
            Self::Rgb555 => 15,
            Self::Rgb888 => 24,
        }
    }
}

/// A defined window entry, taken apart.
#[derive(Clone, Copy)]
pub struct Entry {
    format: Format,
    bank: u32,
    pub bypass: bool,
    pub overlay: bool,
    /// How far up in a sample the used bits start, and a mask of as many bits.
    shift: u32,
    mask: u32,
}

impl Entry {
    /// None where the entry isn't defined at the depth.
    pub fn new(word: u32, depth: u32) -> Option<Self> {
        if !defined(word, depth) {
            return None;
        }
        let format = Format::new(word >> 1 & 7)?;
        let buffer = word & 1;
        Some(Self {
            format,
            bank: word >> 4 & 31,
            bypass: word >> 9 & 1 == 1,
            overlay: word >> 10 & 1 == 1,
            // Where the whole of a sample is used the buffer is 0.
            shift: buffer * depth / 2,
            mask: (1 << format.bits()) - 1,
        })
    }

    /// The bits of a sample that are used, where they stand.
    pub fn used(&self) -> u32 {
        self.mask << self.shift
    }

    /// The map entry that a sample names, in the two formats that go by the map.
    pub fn map_entry(&self, sample: u32) -> Option<u32> {
        let value = self.value(sample);
        match self.format {
            Format::Index8 => Some(256 * self.bank + value),
            Format::Index12 => Some(value),
            _ => None,
        }
    }

    /// The colour of a sample, before gamma.
    pub fn colour(&self, store: Store, sample: u32) -> u32 {
        let value = self.value(sample);
        match self.format {
            Format::Index8 => store.colour(256 * self.bank + value),
            Format::Index12 => store.colour(value),
            Format::Rgb332 => rgb(widen3(value & 7), widen3(value >> 3 & 7), widen2(value >> 6)),
            Format::Rgb444 => rgb(widen4(value & 15), widen4(value >> 4 & 15), widen4(value >> 8)),
            Format::Rgb555 => rgb(widen5(value & 31), widen5(value >> 5 & 31), widen5(value >> 10)),
            Format::Rgb888 => rgb(value & 255, value >> 8 & 255, value >> 16),
        }
    }

    fn value(&self, sample: u32) -> u32 {
        sample >> self.shift & self.mask
    }
}

/// The sample of pixel x in a normal row.
pub fn sample(normal: &[u8], depth: u32, x: u32) -> u32 {
    let x = x as usize;
    if depth == 16 {
        u32::from(u16::from_be_bytes([normal[2 * x], normal[2 * x + 1]]))
    } else {
        u32::from_be_bytes([normal[4 * x], normal[4 * x + 1], normal[4 * x + 2], normal[4 * x + 3]])
    }
}

fn rgb(red: u32, green: u32, blue: u32) -> u32 {
    red << 16 | green << 8 | blue
}

fn widen2(v: u32) -> u32 {
    v * 85
}

fn widen3(v: u32) -> u32 {
    32 * v + 4 * v + v / 2
}

fn widen4(v: u32) -> u32 {
    17 * v
}

fn widen5(v: u32) -> u32 {
    8 * v + v / 4
}
