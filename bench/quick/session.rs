//! A session: from the bytes of a file to its listing.

use std::io::{self, Read, Write};

use super::records::{self, Record};
use super::step;
use super::text;
use crate::model::registers::STORE_WORDS;
use crate::model::session::OUTPUT_WORDS;
use crate::model::step::{Held, Rooms, NORMAL_BYTES, OVERLAY_BYTES, TEXT_BYTES};
use crate::model::windows::TABLE_BYTES;

/// How much is read, and about how much is written, at a time.
const BUFFER: usize = 1 << 16;

/// The bytes of a record are no more than these.
const LONGEST_RECORD: usize = 3 + 65_535;

/// Writes the listing of a file.
pub fn list(file: impl Read, to: impl Write) -> io::Result<()> {
    let (mut source, mut listing) = (Source::new(file), Listing::new(to));
    let mut held = Held::FRESH;
    let (mut store, mut output) = (vec![0; STORE_WORDS], vec![0; OUTPUT_WORDS]);
    let (mut table, mut normal, mut overlay) = (vec![0; TABLE_BYTES], vec![0; NORMAL_BYTES], vec![0; OVERLAY_BYTES]);
    loop {
        let text = listing.room()?;
        match records::first(source.rest(), held.records, held.table) {
            Ok((Record::End, _)) => return listing.flush(),
            Ok((record, length)) => {
                let mut rooms = Rooms {
                    store: &mut store,
                    table: &mut table,
                    normal: &mut normal,
                    overlay: &mut overlay,
                    output: &mut output,
                    text,
                };
                let (text, _) = step::run(&mut held, record, &mut rooms);
                source.first += length;
                listing.past += text;
            }
            Err(number) => {
                if number == 12 || records::whole(source.rest()) || !source.fill()? {
                    listing.past += text::refused(text, (number, held.records));
                    return listing.flush();
                }
            }
        }
    }
}

/// A file, and the bytes of it that were read and not yet used up.
struct Source<R> {
    file: R,
    buffer: Vec<u8>,
    first: usize,
    past: usize,
}

impl<R: Read> Source<R> {
    /// A file of which nothing was read yet.
    fn new(file: R) -> Self {
        Self { file, buffer: vec![0; LONGEST_RECORD + BUFFER], first: 0, past: 0 }
    }

    /// The bytes that are not yet used up.
    fn rest(&self) -> &[u8] {
        &self.buffer[self.first..self.past]
    }

    /// Reads more behind the rest, and answers whether the file had more.
    fn fill(&mut self) -> io::Result<bool> {
        self.buffer.copy_within(self.first..self.past, 0);
        (self.first, self.past) = (0, self.past - self.first);
        loop {
            match self.file.read(&mut self.buffer[self.past..self.past + BUFFER]) {
                Ok(count) => {
                    self.past += count;
                    return Ok(count > 0);
                }
                Err(error) if error.kind() == io::ErrorKind::Interrupted => {}
                Err(error) => return Err(error),
            }
        }
    }
}

/// Text that is not yet written.
struct Listing<W> {
    to: W,
    buffer: Vec<u8>,
    past: usize,
}

impl<W: Write> Listing<W> {
    /// A listing without text.
    fn new(to: W) -> Self {
        Self { to, buffer: vec![0; BUFFER + TEXT_BYTES], past: 0 }
    }

    /// Room for a text, after what there is too much of was written.
    fn room(&mut self) -> io::Result<&mut [u8]> {
        if self.past > BUFFER {
            self.flush()?;
        }
        Ok(&mut self.buffer[self.past..])
    }

    /// Writes all text.
    fn flush(&mut self) -> io::Result<()> {
        self.to.write_all(&self.buffer[..self.past])?;
        self.past = 0;
        self.to.flush()
    }
}
