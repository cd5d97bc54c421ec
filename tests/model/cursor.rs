//! The cursor, where it is on.

use super::store::Store;

#[derive(Clone, Copy)]
pub struct Cursor {
    pub x: u32,
    pub y: u32,
    pub cross_hair: bool,
}

impl Cursor {
    /// Which cursor colour a pixel shows; none where the cursor is transparent.
    pub fn shown(&self, store: Store, x: u32, y: u32) -> Option<u32> {
        if self.cross_hair {
            return (x == self.x || y == self.y).then_some(1);
        }
        let (word, shift) = self.cell(x, y)?;
        let number = store.glyph(word) >> shift & 3;
        (number != 0).then_some(number)
    }

    /// The glyph cell at a pixel inside the glyph: its word, and how far up in it the two bits are.
    pub fn cell(&self, x: u32, y: u32) -> Option<(u32, u32)> {
        let column = (x + 31).checked_sub(self.x).filter(|&column| column < 32)?;
        let row = (y + 31).checked_sub(self.y).filter(|&row| row < 32)?;
        Some((2 * row + column / 16, 30 - 2 * (column % 16)))
    }
}
