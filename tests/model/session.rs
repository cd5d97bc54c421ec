//! A session: from the bytes of a file to its listing.

use std::io::{self, Read, Write};

use super::chip::State;
use super::line::Lent;
use super::listing::{Listed, Listing};
use super::records::{Record, Records};
use super::registers::STORE_WORDS;
use super::screen::Screen;

/// The words of the output: as many as the widest line has.
pub const OUTPUT_WORDS: usize = 2048;

/// Writes the listing of a file.
pub fn list(file: impl Read, to: impl Write) -> io::Result<()> {
    let mut records = Records::new(file);
    let mut listing = Listing::new(to);
    let mut session = Session::new();
    loop {
        match records.next()? {
            Ok(record) => match session.step(record) {
                Some(listed) => listing.add(listed)?,
                None => return Ok(()),
            },
            Err(refusal) => return listing.add(Listed::Refused(refusal)),
        }
    }
}

/// The chip and what a session holds for it.
struct Session {
    state: State,
    store: Vec<u32>,
    table: Vec<u8>,
    normal: Vec<u8>,
    overlay: Vec<u8>,
    output: Vec<u32>,
}

impl Session {
    /// A fresh chip with a store of zeros, an empty table and empty rows.
    fn new() -> Self {
        Self {
            state: State::FRESH,
            store: vec![0; STORE_WORDS],
            table: Vec::new(),
            normal: Vec::new(),
            overlay: Vec::new(),
            output: vec![0; OUTPUT_WORDS],
        }
    }

    /// Does what a record says, and answers what is listed of it: of the end, nothing.
    fn step(&mut self, record: Record) -> Option<Listed<'_>> {
        match record {
            Record::End => return None,
            Record::Write { address, value } => return Some(self.write(address, value)),
            Record::Dots(count) => return Some(self.dots(count)),
            Record::Table(bytes) => self.table.extend_from_slice(bytes),
            Record::Normal(row) => std::mem::swap(&mut self.normal, row),
            Record::Overlay(row) => std::mem::swap(&mut self.overlay, row),
            Record::Line(y) => return Some(self.line(y)),
        }
        Some(Listed::Ok)
    }

    fn write(&mut self, address: u32, value: u32) -> Listed<'_> {
        match self.state.write(&mut self.store, address, value) {
            Ok(()) => Listed::Ok,
            Err(refusal) => Listed::Refused(refusal),
        }
    }

    fn dots(&mut self, count: u32) -> Listed<'_> {
        match self.state.dots(&mut self.store, count) {
            Ok(_) => Listed::At(self.state.at),
            Err(refusal) => Listed::Refused(refusal),
        }
    }

    fn line(&mut self, y: u32) -> Listed<'_> {
        let Self { state, store, table, normal, overlay, output } = self;
        let width = Screen::new(&state.control).width as usize;
        match state.line(y, Lent { store, table, normal, overlay }, output) {
            Ok(()) => Listed::Line { y, pixels: &output[..width] },
            Err(refusal) => Listed::Refused(refusal),
        }
    }
}
