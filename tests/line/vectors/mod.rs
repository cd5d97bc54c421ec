//! Lines with answers worked out by hand from the paper, and sweeps that are compared with the model.

mod colours;
mod examples;
mod layers;
mod lengths;
mod refusals;
mod tables;

use crate::case::{fields, Case};
use crate::model::chip::State;
use crate::pair::{Compared, Pair, Wanted};

/// What a case shows, and the case.
pub type Vector = (&'static str, fn(&mut Pair) -> Compared<()>);

pub fn all() -> Vec<Vector> {
    [&examples::VECTORS[..], &colours::VECTORS, &layers::VECTORS, &lengths::VECTORS, &tables::VECTORS, &refusals::VECTORS].concat()
}

/// Bits of control word 0.
const OVERLAY_ON: u32 = 1;
const IDS_ON: u32 = 2;
const CURSOR_ON: u32 = 4;
const CROSS_HAIR: u32 = 8;
const DEPTH_32: u32 = 16;

/// Bits of a window entry.
const BUFFER_1: u32 = 1;
const BYPASS: u32 = 1 << 9;
const OVERLAY_ALLOWED: u32 = 1 << 10;

/// A window entry's format, and its bank.
const fn format(number: u32) -> u32 {
    number << 1
}

const fn bank(number: u32) -> u32 {
    number << 4
}

/// An entry of a line table.
const fn entry(xend: u16, id: u16) -> u16 {
    xend << 5 | id
}

/// Where the blocks of the store start.
const MAP: usize = 32;
const GAMMA: usize = 4640;
const GLYPH: usize = 4896;
const CURSOR_COLOURS: usize = 4960;

/// What no line may leave in the words that it draws.
const OLD: u32 = 0xDEAD_BEEF;

/// A line 0 of so many pixels with all switches off, all samples 0, and entry 0 of format 0, bank 0 and gamma bypassed.
///
/// Map entry e is 0xC00000 + e. Gamma takes red r to 255 − r, green g to g + 1 and blue b to b xor 0x55. Cursor colours 1, 2
/// and 3 are 0x010203, 0x040506 and 0x070809. Bits that aren't kept are all set.
fn plain(depth: u32, width: u32) -> Case {
    let mut store = vec![0; 4963];
    for (entry, word) in (0..).zip(&mut store[MAP..GAMMA]) {
        *word = 0xFFC0_0000 + entry;
    }
    for (value, word) in (0..=255_u8).zip(&mut store[GAMMA..GLYPH]) {
        *word = u32::from_be_bytes([0xFF, 255 - value, value.wrapping_add(1), value ^ 0x55]);
    }
    store[CURSOR_COLOURS..].copy_from_slice(&[0xFF01_0203, 0xFF04_0506, 0xFF07_0809]);
    let mut case = Case {
        state: State::FRESH,
        y: 0,
        store,
        table: Vec::new(),
        normal: vec![0; (width * depth / 8) as usize],
        overlay: Vec::new(),
        output: vec![OLD; width as usize + 2],
    };
    case.state.control[0] = if depth == 32 { DEPTH_32 } else { 0 };
    case.state.control[1] = fields(4095, 4095);
    case.state.control[7] = fields(width - 1, 2047);
    case.window(0, BYPASS);
    case
}

impl Case {
    fn switch_on(&mut self, bits: u32) {
        self.state.control[0] |= bits;
    }

    /// Sets a window entry, with all bits set that aren't kept.
    fn window(&mut self, id: usize, entry: u32) {
        self.store[id] = 0xFFFF_E000 | entry;
    }

    fn sample(&mut self, x: usize, sample: u32) {
        if self.state.control[0] & DEPTH_32 == 0 {
            self.normal[2 * x..][..2].copy_from_slice(&(sample as u16).to_be_bytes());
        } else {
            self.normal[4 * x..][..4].copy_from_slice(&sample.to_be_bytes());
        }
    }

    fn overlay_row(&mut self, row: &[u8]) {
        self.switch_on(OVERLAY_ON);
        self.overlay = row.to_vec();
    }

    fn cursor(&mut self, x: u32, y: u32) {
        self.switch_on(CURSOR_ON);
        self.state.control[8] = fields(x, y);
    }

    /// Sets one glyph cell and none of the others.
    fn glyph_cell(&mut self, row: usize, column: usize, number: u32) {
        self.store[GLYPH..CURSOR_COLOURS].fill(0);
        self.store[GLYPH + 2 * row + column / 16] = number << (30 - 2 * (column % 16));
    }

    fn put_table(&mut self, at: usize, bytes: &[u8]) {
        self.table[at..at + bytes.len()].copy_from_slice(bytes);
    }
}

fn colours(colours: &[u32]) -> Wanted {
    Wanted::Colours(colours.to_vec())
}

/// Words that look random and are the same in each run.
fn noise(seed: u32) -> u32 {
    let mixed = (seed ^ 0x9E37_79B9).wrapping_mul(0x85EB_CA6B);
    (mixed ^ mixed >> 13).wrapping_mul(0xC2B2_AE35) ^ mixed >> 16
}
