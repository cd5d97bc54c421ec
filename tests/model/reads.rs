//! What a line reads, in the paper's order.

use super::chip::State;
use super::line::{Lent, OVERLAY};
use super::pixel::{sample, Entry};
use super::registers::{COLOUR_KEPT, COLOUR_MAP};
use super::screen::Screen;
use super::store::{Store, CURSOR_COLOURS, CURSOR_GLYPH, ENTRY_KEPT, GAMMA_MAP};
use super::windows::{frame_entries, line_entries};

/// The bits of lent memory that an answer may rest on: ones in masks as long as what is lent.
#[derive(PartialEq, Eq)]
pub struct Reads {
    pub store: Vec<u32>,
    pub table: Vec<u8>,
    pub normal: Vec<u8>,
    pub overlay: Vec<u8>,
}

/// What line y reads, drawn or refused. Of a table entry that serves no pixel only its end counts.
pub fn reads(state: &State, y: u32, lent: Lent, output_words: usize) -> Reads {
    let mut reads = Reads {
        store: vec![0; lent.store.len()],
        table: vec![0; lent.table.len()],
        normal: vec![0; lent.normal.len()],
        overlay: vec![0; lent.overlay.len()],
    };
    if let Ok(screen) = state.screen_for(y, lent, output_words) {
        if let Some(entries) = reads.windows(&screen, y, lent) {
            for (x, entry) in (0..).zip(entries) {
                reads.pixel(&screen, entry, x, y, lent);
            }
        }
    }
    reads
}

/// The bits of a frame entry: its end, and where its line table starts.
const YEND: u32 = 0x07FF_0000;
const START: u32 = 0x0000_7FFF;

/// The bits of a line entry.
const XEND: u16 = 0xFFE0;
const ID: u16 = 0x001F;

impl Reads {
    /// Reads the tables and the window entries up to the first fault; answers each pixel's entry where there is none.
    fn windows(&mut self, screen: &Screen, y: u32, lent: Lent) -> Option<Vec<Entry>> {
        let line_table = if screen.ids_on { Some(self.frame_table(y, lent.table)?) } else { None };
        let mut entries = Vec::new();
        for x in 0..screen.width {
            let id = match &line_table {
                Some(line_table) => self.line_table(x, lent.table, line_table.clone())?,
                None => 0,
            };
            self.store[id as usize] |= ENTRY_KEPT;
            entries.push(Entry::new(Store(lent.store).window_entry(id), screen.depth)?);
        }
        Some(entries)
    }

    /// Reads the frame entries up to the one of a line, and answers where its line table is.
    fn frame_table(&mut self, y: u32, table: &[u8]) -> Option<std::ops::Range<usize>> {
        for (number, entry) in frame_entries(table).enumerate() {
            self.table_bits(4 * number, &YEND.to_be_bytes());
            if entry.yend >= y {
                self.table_bits(4 * number, &START.to_be_bytes());
                return Some(entry.line_table(table.len()));
            }
        }
        None
    }

    /// Reads the line entries up to the one of a pixel, and answers its ID.
    fn line_table(&mut self, x: u32, table: &[u8], line_table: std::ops::Range<usize>) -> Option<u32> {
        for (number, entry) in line_entries(&table[line_table.clone()]).enumerate() {
            let at = line_table.start + 2 * number;
            self.table_bits(at, &XEND.to_be_bytes());
            if entry.xend >= x {
                self.table_bits(at, &ID.to_be_bytes());
                return Some(entry.id);
            }
        }
        None
    }

    fn table_bits(&mut self, at: usize, bits: &[u8]) {
        for (mask, bits) in self.table[at..].iter_mut().zip(bits) {
            *mask |= bits;
        }
    }

    /// Reads what a pixel of a drawn line rests on.
    fn pixel(&mut self, screen: &Screen, entry: Entry, x: u32, y: u32, lent: Lent) {
        let store = Store(lent.store);
        if let Some(cursor) = screen.cursor {
            if let Some((word, shift)) = cursor.cell(x, y).filter(|_| !cursor.cross_hair) {
                self.store[CURSOR_GLYPH + word as usize] |= 3 << shift;
            }
            if let Some(number) = cursor.shown(store, x, y) {
                self.store[CURSOR_COLOURS - 1 + number as usize] |= COLOUR_KEPT;
                return;
            }
        }
        let at = x as usize;
        if screen.overlay_on && entry.overlay {
            self.overlay[at] = u8::MAX;
            if lent.overlay[at] != 0 {
                let map_entry = OVERLAY + u32::from(lent.overlay[at]);
                self.map(map_entry);
                return self.gamma(entry, store.colour(map_entry));
            }
        }
        let bytes = screen.depth as usize / 8;
        let used = (entry.used() << (32 - screen.depth)).to_be_bytes();
        self.normal[bytes * at..bytes * (at + 1)].copy_from_slice(&used[..bytes]);
        let sample = sample(lent.normal, screen.depth, x);
        if let Some(map_entry) = entry.map_entry(sample) {
            self.map(map_entry);
        }
        self.gamma(entry, entry.colour(store, sample));
    }

    fn map(&mut self, entry: u32) {
        self.store[COLOUR_MAP + entry as usize] |= COLOUR_KEPT;
    }

    /// Reads one byte of each gamma word that the channels of a colour hit.
    fn gamma(&mut self, entry: Entry, colour: u32) {
        if !entry.bypass {
            let [_, red, green, blue] = colour.to_be_bytes();
            self.store[GAMMA_MAP + red as usize] |= 0xFF_0000;
            self.store[GAMMA_MAP + green as usize] |= 0x00_FF00;
            self.store[GAMMA_MAP + blue as usize] |= 0x00_00FF;
        }
    }
}
