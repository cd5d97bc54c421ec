//! The overlay of a run.

use std::hint::select_unpredictable;

use super::maps::{Palette, COLOUR};

/// Lays overlay bytes over what was drawn: byte 0 is transparent, every other picks a colour.
pub fn lay(overlay: &[u8], palette: &Palette, output: &mut [u32]) {
    for (&byte, word) in overlay.iter().zip(output) {
        let colour = palette[usize::from(byte)] & COLOUR;
        *word = select_unpredictable(byte == 0, *word, colour);
    }
}
