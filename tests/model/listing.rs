//! The listing of a session.

use std::io::{self, Write};

use super::beam::Position;
use super::chip::Refusal;

/// What is listed of a record.
pub enum Listed<'a> {
    Ok,
    At(Position),
    Line { y: u32, pixels: &'a [u32] },
    Refused(Refusal),
}

/// A listing that is written as it grows.
pub struct Listing<W> {
    to: W,
    /// The pixels of a line as text.
    text: Vec<u8>,
}

impl<W: Write> Listing<W> {
    pub fn new(to: W) -> Self {
        Self { to, text: Vec::new() }
    }

    pub fn add(&mut self, listed: Listed) -> io::Result<()> {
        match listed {
            Listed::Ok => self.to.write_all(b"ok\n"),
            Listed::At(Position { x, y }) => writeln!(self.to, "at {x} {y}"),
            Listed::Line { y, pixels } => {
                writeln!(self.to, "line {y}")?;
                self.add_pixels(pixels)
            }
            Listed::Refused((number, place)) => writeln!(self.to, "refused {number} {place}"),
        }
    }

    fn add_pixels(&mut self, pixels: &[u32]) -> io::Result<()> {
        self.text.clear();
        self.text.extend(pixels.iter().flat_map(|&colour| hex_line(colour)));
        self.to.write_all(&self.text)
    }
}

/// A colour in six hex digits, on a line of its own.
fn hex_line(colour: u32) -> [u8; 7] {
    let digit = |place: u32| b"0123456789abcdef"[(colour >> (4 * place) & 15) as usize];
    [digit(5), digit(4), digit(3), digit(2), digit(1), digit(0), b'\n']
}
