//! The rooms of a step, with margins that no call may touch either.

use crate::model::registers::STORE_WORDS;
use crate::model::session::OUTPUT_WORDS;
use crate::model::step::{self, NORMAL_BYTES, OVERLAY_BYTES, TEXT_BYTES};
use crate::model::windows::TABLE_BYTES;
use crate::numbers::Numbers;

/// How many elements of each room are lent, by the places of number 5: store, table, rows, output, text.
pub type Lengths = [usize; 6];

/// The lengths that are right; a text may be longer.
pub const RIGHT: Lengths = [STORE_WORDS, TABLE_BYTES, NORMAL_BYTES, OVERLAY_BYTES, OUTPUT_WORDS, TEXT_BYTES];

/// What stands in each room, by the places of number 5.
pub const NAMES: [&str; 6] = ["store", "table", "normal row", "overlay row", "output", "text"];

/// Elements before and after each room.
pub const MARGIN: usize = 64;

/// What the rooms hold at first.
#[derive(Clone, Copy, Debug, PartialEq, Eq)]
pub enum Fill {
    /// A store of zeros, as a session starts, and so all else.
    Zeros,
    /// A store of zeros, and anything in the rooms that may hold anything.
    Session(u64),
    /// Anything in all of them.
    Numbers(u64),
}

#[derive(Clone, PartialEq, Eq)]
pub struct Rooms {
    pub store: Vec<u32>,
    pub table: Vec<u8>,
    pub normal: Vec<u8>,
    pub overlay: Vec<u8>,
    pub output: Vec<u32>,
    pub text: Vec<u8>,
}

impl Rooms {
    pub fn new() -> Self {
        let [store, table, normal, overlay, output, text] = RIGHT.map(|length| length + 2 * MARGIN);
        Self {
            store: vec![0; store],
            table: vec![0; table],
            normal: vec![0; normal],
            overlay: vec![0; overlay],
            output: vec![0; output],
            text: vec![0; text],
        }
    }

    pub fn fill(&mut self, fill: Fill) {
        let (mut store, mut others): (Box<dyn FnMut() -> u32>, Box<dyn FnMut() -> u32>) = match fill {
            Fill::Zeros => (Box::new(|| 0), Box::new(|| 0)),
            Fill::Session(seed) => (Box::new(|| 0), any(seed)),
            Fill::Numbers(seed) => (any(seed ^ 0x5A5A), any(seed)),
        };
        self.store.fill_with(&mut store);
        self.output.fill_with(&mut others);
        for bytes in [&mut self.table, &mut self.normal, &mut self.overlay, &mut self.text] {
            for four in bytes.chunks_mut(4) {
                four.copy_from_slice(&others().to_ne_bytes()[..four.len()]);
            }
        }
    }

    pub fn copy_from(&mut self, other: &Self) {
        self.store.copy_from_slice(&other.store);
        self.table.copy_from_slice(&other.table);
        self.normal.copy_from_slice(&other.normal);
        self.overlay.copy_from_slice(&other.overlay);
        self.output.copy_from_slice(&other.output);
        self.text.copy_from_slice(&other.text);
    }

    pub fn lent(&mut self, [store, table, normal, overlay, output, text]: Lengths) -> step::Rooms<'_> {
        step::Rooms {
            store: &mut self.store[MARGIN..MARGIN + store],
            table: &mut self.table[MARGIN..MARGIN + table],
            normal: &mut self.normal[MARGIN..MARGIN + normal],
            overlay: &mut self.overlay[MARGIN..MARGIN + overlay],
            output: &mut self.output[MARGIN..MARGIN + output],
            text: &mut self.text[MARGIN..MARGIN + text],
        }
    }

    /// So many bytes from the front of the text.
    pub fn text(&self, length: usize) -> &[u8] {
        &self.text[MARGIN..MARGIN + length.min(RIGHT[5] + MARGIN)]
    }

    /// The rooms in which two differ.
    pub fn differing(&self, other: &Self) -> Vec<&'static str> {
        let alike = [
            self.store == other.store,
            self.table == other.table,
            self.normal == other.normal,
            self.overlay == other.overlay,
            self.output == other.output,
            self.text == other.text,
        ];
        NAMES.into_iter().zip(alike).filter(|(_, alike)| !alike).map(|(name, _)| name).collect()
    }

    /// The words in which two stores differ.
    pub fn differing_words(&self, other: &Self) -> Vec<usize> {
        let stores = self.store.iter().zip(&other.store).skip(MARGIN).enumerate();
        stores.filter(|(_, (one, other))| one != other).map(|(index, _)| index).collect()
    }
}

fn any(seed: u64) -> Box<dyn FnMut() -> u32> {
    let mut numbers = Numbers::new(seed);
    Box::new(move || numbers.next())
}
