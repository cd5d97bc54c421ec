//! The records of a session file.

use std::io::{self, ErrorKind, Read};

use super::chip::Refusal;
use super::windows::TABLE_BYTES;

/// How many records a file may have.
pub const RECORDS: u32 = 1_000_000;

/// How many dots a record may ask for.
pub const MOST_DOTS: u32 = 16_777_216;

/// A record that isn't refused. Of a row the bytes are lent to be taken.
pub enum Record<'a> {
    End,
    Write { address: u32, value: u32 },
    Dots(u32),
    Table(&'a [u8]),
    Normal(&'a mut Vec<u8>),
    Overlay(&'a mut Vec<u8>),
    Line(u32),
}

#[derive(Clone, Copy)]
enum Tag {
    End,
    Write,
    Dots,
    Table,
    Normal,
    Overlay,
    Line,
}

impl Tag {
    fn new(byte: u8) -> Option<Self> {
        Some(match byte {
            0 => Self::End,
            1 => Self::Write,
            2 => Self::Dots,
            3 => Self::Table,
            4 => Self::Normal,
            5 => Self::Overlay,
            6 => Self::Line,
            _ => return None,
        })
    }

    /// Whether a body may be so long.
    fn allows(self, length: usize) -> bool {
        match self {
            Self::End => length == 0,
            Self::Write => length == 8,
            Self::Dots => length == 4,
            Self::Table => true,
            Self::Normal => length <= 8192,
            Self::Overlay => length <= 2048,
            Self::Line => length == 2,
        }
    }
}

/// The records of a file, one after another.
pub struct Records<R> {
    file: R,
    /// The number of the next record.
    number: u32,
    /// How many bytes of the ID table came so far.
    table_bytes: usize,
    /// The body of the record read last.
    body: Vec<u8>,
}

impl<R: Read> Records<R> {
    pub fn new(file: R) -> Self {
        Self::from(file, 0, 0)
    }

    /// The records from one of this number on, after so many bytes of the ID table.
    pub fn from(file: R, number: u32, table_bytes: usize) -> Self {
        Self { file, number, table_bytes, body: Vec::new() }
    }

    /// Reads a record, or refuses it by 12, 14 or 13; after a refusal and after the end nothing more is to be read.
    pub fn next(&mut self) -> io::Result<Result<Record<'_>, Refusal>> {
        Ok(match self.read()? {
            Ok(tag) => {
                self.number += 1;
                Ok(self.taken_apart(tag))
            }
            Err(number) => Err((number, self.number)),
        })
    }

    /// Reads as much of a record as is there, and answers its tag or the number of its first fault.
    fn read(&mut self) -> io::Result<Result<Tag, u32>> {
        let Some([tag]) = self.bytes()? else { return Ok(Err(13)) };
        let Some(tag) = Tag::new(tag) else { return Ok(Err(12)) };
        let length = self.bytes()?.map(|bytes| usize::from(u16::from_be_bytes(bytes)));
        if length.is_some_and(|length| !tag.allows(length)) {
            return Ok(Err(12));
        }
        let whole = match length {
            Some(length) => self.read_body(length)?,
            None => false,
        };
        Ok(if whole && matches!(tag, Tag::Dots) && self.word(0) > MOST_DOTS {
            Err(12)
        } else if self.number >= RECORDS || length.is_some_and(|length| self.table_overflows(tag, length)) {
            Err(14)
        } else if !whole {
            Err(13)
        } else {
            Ok(tag)
        })
    }

    fn table_overflows(&self, tag: Tag, length: usize) -> bool {
        matches!(tag, Tag::Table) && self.table_bytes + length > TABLE_BYTES
    }

    /// What a whole record says.
    fn taken_apart(&mut self, tag: Tag) -> Record<'_> {
        match tag {
            Tag::End => Record::End,
            Tag::Write => Record::Write { address: self.word(0), value: self.word(4) },
            Tag::Dots => Record::Dots(self.word(0)),
            Tag::Table => {
                self.table_bytes += self.body.len();
                Record::Table(&self.body)
            }
            Tag::Normal => Record::Normal(&mut self.body),
            Tag::Overlay => Record::Overlay(&mut self.body),
            Tag::Line => Record::Line(u32::from(u16::from_be_bytes([self.body[0], self.body[1]]))),
        }
    }

    /// The word at a place in the body.
    fn word(&self, at: usize) -> u32 {
        let body = &self.body[at..at + 4];
        u32::from_be_bytes([body[0], body[1], body[2], body[3]])
    }

    /// The next bytes, where all of them are there.
    fn bytes<const N: usize>(&mut self) -> io::Result<Option<[u8; N]>> {
        let mut bytes = [0; N];
        Ok(fill(&mut self.file, &mut bytes)?.then_some(bytes))
    }

    /// Reads a body, and answers whether all of it is there.
    fn read_body(&mut self, length: usize) -> io::Result<bool> {
        self.body.resize(length, 0);
        fill(&mut self.file, &mut self.body)
    }
}

/// Reads as many bytes as there is room for, and answers whether they are all there.
fn fill(file: &mut impl Read, room: &mut [u8]) -> io::Result<bool> {
    match file.read_exact(room) {
        Ok(()) => Ok(true),
        Err(error) if error.kind() == ErrorKind::UnexpectedEof => Ok(false),
        Err(error) => Err(error),
    }
}
