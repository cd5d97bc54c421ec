//! What control words 0, 1, 6, 7 and 8 say of a line.

use super::cursor::Cursor;

pub struct Screen {
    pub overlay_on: bool,
    pub ids_on: bool,
    pub depth: u32,
    pub width: u32,
    pub height: u32,
    pub cursor: Option<Cursor>,
    fits: bool,
}

impl Screen {
    pub fn new(control: &[u32; 9]) -> Self {
        let on = |bit: u32| control[0] >> bit & 1 == 1;
        let (total_width, total_lines) = sizes(control[1]);
        let (x, y) = fields(control[6]);
        let (width, height) = sizes(control[7]);
        let (cx, cy) = fields(control[8]);
        Self {
            overlay_on: on(0),
            ids_on: on(1),
            depth: if on(4) { 32 } else { 16 },
            width,
            height,
            cursor: on(2).then_some(Cursor { x: cx, y: cy, cross_hair: on(3) }),
            fits: x + width <= total_width && y + height <= total_lines,
        }
    }

    /// Whether origin and size together stay within the total, both ways.
    pub fn fits(&self) -> bool {
        self.fits
    }

    /// Bytes of a normal row.
    pub fn row_bytes(&self) -> usize {
        (self.width * self.depth / 8) as usize
    }
}

/// The two fields of a control word, low and high.
fn fields(word: u32) -> (u32, u32) {
    (word & 0xFFF, word >> 16 & 0xFFF)
}

/// The same of a word whose fields are less by 1 than what they stand for.
fn sizes(word: u32) -> (u32, u32) {
    let (across, down) = fields(word);
    (across + 1, down + 1)
}
