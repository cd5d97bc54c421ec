//! What a line looks at in the store: the kept bits of each block's words.

use super::registers::{COLOUR_KEPT, COLOUR_MAP};

/// The bits that a window entry has.
pub const ENTRY_KEPT: u32 = 0x1FFF;

/// Where the gamma map starts in the store.
pub const GAMMA_MAP: usize = 4640;

/// Where the cursor glyph starts in the store.
pub const CURSOR_GLYPH: usize = 4896;

/// Where the cursor colours start in the store, the first of which is colour 1.
pub const CURSOR_COLOURS: usize = 4960;

/// A store of the right length.
#[derive(Clone, Copy)]
pub struct Store<'a>(pub &'a [u32]);

impl Store<'_> {
    pub fn window_entry(self, id: u32) -> u32 {
        self.0[id as usize] & ENTRY_KEPT
    }

    pub fn colour(self, entry: u32) -> u32 {
        self.0[COLOUR_MAP + entry as usize] & COLOUR_KEPT
    }

    /// A colour whose channels are replaced by those of the gamma words that they index.
    pub fn corrected(self, colour: u32) -> u32 {
        let [_, red, green, blue] = colour.to_be_bytes();
        self.gamma(red) & 0xFF_0000 | self.gamma(green) & 0x00_FF00 | self.gamma(blue) & 0x00_00FF
    }

    fn gamma(self, channel: u8) -> u32 {
        self.0[GAMMA_MAP + channel as usize]
    }

    pub fn glyph(self, word: u32) -> u32 {
        self.0[CURSOR_GLYPH + word as usize]
    }

    /// Cursor colour 1, 2 or 3.
    pub fn cursor_colour(self, number: u32) -> u32 {
        self.0[CURSOR_COLOURS - 1 + number as usize] & COLOUR_KEPT
    }
}
