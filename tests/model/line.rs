//! One line.

use super::chip::{Refusal, State};
use super::cursor::Cursor;
use super::pixel::{sample, Entry};
use super::registers::STORE_WORDS;
use super::screen::Screen;
use super::store::Store;
use super::windows::{runs, Run, TABLE_BYTES};

/// The first map entry of the overlay.
pub const OVERLAY: u32 = 4352;

/// What a line is lent beside its output.
#[derive(Clone, Copy)]
pub struct Lent<'a> {
    pub store: &'a [u32],
    pub table: &'a [u8],
    pub normal: &'a [u8],
    pub overlay: &'a [u8],
}

impl State {
    /// Draws line y into the first words of the output, or refuses it and draws nothing.
    pub fn line(&self, y: u32, lent: Lent, output: &mut [u32]) -> Result<(), Refusal> {
        let screen = self.screen_for(y, lent, output.len())?;
        let store = Store(lent.store);
        let runs = checked_runs(&screen, store, lent.table, y)?;
        let line = Line { y, depth: screen.depth, overlay_on: screen.overlay_on, cursor: screen.cursor, store, lent };
        for (run, entry) in runs {
            line.draw(run, entry, &mut output[run.first as usize..]);
        }
        Ok(())
    }

    /// Refuses by 11, 10, 6 and 5.
    pub fn screen_for(&self, y: u32, lent: Lent, output_words: usize) -> Result<Screen, Refusal> {
        if !self.good() {
            return Err((11, 0));
        }
        let screen = Screen::new(&self.control);
        if !screen.fits() {
            return Err((10, 0));
        }
        if y >= screen.height {
            return Err((6, y));
        }
        let width = screen.width as usize;
        let right_lengths = [
            lent.store.len() == STORE_WORDS,
            !screen.ids_on || lent.table.len() <= TABLE_BYTES,
            lent.normal.len() == screen.row_bytes(),
            !screen.overlay_on || lent.overlay.len() == width,
            output_words >= width,
        ];
        match (1..).zip(right_lengths).find(|(_, right)| !right) {
            Some((place, _)) => Err((5, place)),
            None => Ok(screen),
        }
    }
}

/// The runs of a line with their window entries. Refuses by 7, 8 and 9.
fn checked_runs(screen: &Screen, store: Store, table: &[u8], y: u32) -> Result<Vec<(Run, Entry)>, Refusal> {
    let with_entry = |run: Run| {
        let entry = Entry::new(store.window_entry(run.id), screen.depth).ok_or((9, run.first))?;
        Ok((run, entry))
    };
    if screen.ids_on {
        runs(table, y, screen.width)?.map(|run| with_entry(run?)).collect()
    } else {
        Ok(vec![with_entry(Run { first: 0, past: screen.width, id: 0 })?])
    }
}

/// A line that isn't refused.
struct Line<'a> {
    y: u32,
    depth: u32,
    overlay_on: bool,
    cursor: Option<Cursor>,
    store: Store<'a>,
    lent: Lent<'a>,
}

impl Line<'_> {
    /// Draws a run into the output from its first pixel on.
    fn draw(&self, run: Run, entry: Entry, output: &mut [u32]) {
        for (x, word) in (run.first..run.past).zip(output) {
            *word = match self.cursor.and_then(|cursor| cursor.shown(self.store, x, self.y)) {
                Some(number) => self.store.cursor_colour(number),
                None => self.below_cursor(&entry, x),
            };
        }
    }

    fn below_cursor(&self, entry: &Entry, x: u32) -> u32 {
        let overlay = if self.overlay_on && entry.overlay { self.lent.overlay[x as usize] } else { 0 };
        let colour = match overlay {
            0 => entry.colour(self.store, sample(self.lent.normal, self.depth, x)),
            byte => self.store.colour(OVERLAY + u32::from(byte)),
        };
        if entry.bypass {
            colour
        } else {
            self.store.corrected(colour)
        }
    }
}
