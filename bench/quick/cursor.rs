//! The cursor of a line.

use super::maps::{Maps, COLOUR};
use crate::model::cursor::Cursor;

/// The glyph's size, both ways.
const SIZE: u32 = 32;

/// Draws the cursor over the pixels that it can touch.
pub fn draw(cursor: Cursor, y: u32, maps: &Maps, output: &mut [u32]) {
    if cursor.cross_hair {
        cross_hair(cursor, y, maps.cursor_colours[0] & COLOUR, output);
    } else if let Some(row) = (y + SIZE - 1).checked_sub(cursor.y).filter(|&row| row < SIZE) {
        let word = |half| u64::from(maps.glyph[2 * row as usize + half]);
        glyph_row(cursor.x as usize, word(0) << 32 | word(1), maps.cursor_colours, output);
    }
}

/// Draws a whole line or one pixel.
fn cross_hair(cursor: Cursor, y: u32, colour: u32, output: &mut [u32]) {
    if y == cursor.y {
        output.fill(colour);
    } else if let Some(word) = output.get_mut(cursor.x as usize) {
        *word = colour;
    }
}

/// Draws a row of cells, of which the leftmost has the top two bits and the rightmost is at x.
fn glyph_row(x: usize, mut cells: u64, colours: &[u32; 3], output: &mut [u32]) {
    let first = (x + 1).saturating_sub(SIZE as usize);
    cells <<= 2 * (SIZE as usize - (x + 1 - first));
    let past = output.len().min(x + 1);
    for word in output.get_mut(first..past).unwrap_or_default() {
        if let Some(colour) = ((cells >> 62) as usize).checked_sub(1) {
            *word = colours[colour] & COLOUR;
        }
        cells <<= 2;
    }
}
