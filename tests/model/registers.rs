//! The register map.

/// Words of the lent store.
pub const STORE_WORDS: usize = 4963;

/// Entries of the colour map.
pub const COLOUR_ENTRIES: u32 = 4608;

/// The bits that a colour has.
pub const COLOUR_KEPT: u32 = 0x00FF_FFFF;

/// Where the colour map starts in the store.
pub const COLOUR_MAP: usize = 32;

/// The bits that control words 0 to 8 keep.
pub const CONTROL_KEPT: [u32; 9] = [
    0x0000_001F,
    0x0FFF_0FFF,
    0x0FFF_0FFF,
    0x0FFF_0FFF,
    0x0FFF_0FFF,
    0x0FFF_0FFF,
    0x0FFF_0FFF,
    0x07FF_07FF,
    0x0FFF_0FFF,
];

/// A block of the store: its first address, its words and the bits that each keeps.
struct Block {
    from: u32,
    words: u32,
    kept: u32,
}

const WINDOW_ENTRIES: Block = Block { from: 0x01_0000, words: 32, kept: 0x1FFF };
const COLOURS: Block = Block { from: 0x02_0000, words: COLOUR_ENTRIES, kept: COLOUR_KEPT };
const GAMMA_MAP: Block = Block { from: 0x03_0000, words: 256, kept: 0x00FF_FFFF };
const CURSOR_GLYPH: Block = Block { from: 0x04_0000, words: 64, kept: 0xFFFF_FFFF };
const CURSOR_COLOURS: Block = Block { from: 0x04_1000, words: 3, kept: 0x00FF_FFFF };

/// The blocks in the order of the store.
const STORE: [Block; 5] = [WINDOW_ENTRIES, COLOURS, GAMMA_MAP, CURSOR_GLYPH, CURSOR_COLOURS];

impl Block {
    /// Which word of the block an address is.
    fn word(&self, address: u32) -> Option<u32> {
        (self.from..self.from + 4 * self.words).contains(&address).then(|| (address - self.from) / 4)
    }
}

/// What stands at an address.
#[derive(Clone, Copy)]
pub enum Register {
    /// Control word 0 to 8.
    Control(usize),
    /// Control word 9.
    Room,
    /// Control word 10.
    Position,
    /// An entry of the colour map.
    Colour(u32),
    /// A word of another block, by its index in the store.
    Stored { index: usize, kept: u32 },
}

impl Register {
    /// The register at an address of 24 bits.
    pub fn at(address: u32) -> Option<Self> {
        if !address.is_multiple_of(4) {
            return None;
        }
        match address / 4 {
            word @ 0..=8 => Some(Self::Control(word as usize)),
            9 => Some(Self::Room),
            10 => Some(Self::Position),
            _ => Self::in_store(address),
        }
    }

    fn in_store(address: u32) -> Option<Self> {
        if let Some(entry) = COLOURS.word(address) {
            return Some(Self::Colour(entry));
        }
        let mut first = 0;
        for block in &STORE {
            if let Some(word) = block.word(address) {
                return Some(Self::Stored { index: (first + word) as usize, kept: block.kept });
            }
            first += block.words;
        }
        None
    }

    /// The bits that a write may set.
    pub fn kept(self) -> u32 {
        match self {
            Self::Control(word) => CONTROL_KEPT[word],
            Self::Room | Self::Position => 0,
            Self::Colour(_) => COLOUR_KEPT,
            Self::Stored { kept, .. } => kept,
        }
    }
}
