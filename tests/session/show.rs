//! Files and differences in words.

use std::fmt::{self, Display, Formatter};
use std::io;

use super::recorded;

/// How many bytes of a record, records of a file and lines of a listing are shown.
const SHOWN: usize = 40;

/// A file that the two list differently.
pub struct Difference {
    pub file: Vec<u8>,
    pub program: io::Result<Vec<u8>>,
    pub model: Vec<u8>,
}

impl Display for Difference {
    fn fmt(&self, f: &mut Formatter) -> fmt::Result {
        let Self { file, program, model } = self;
        writeln!(f, "a file of {} bytes:", file.len())?;
        for record in first_and_last(&recorded::split(file)) {
            match record {
                Some(record) => writeln!(f, "  {:<30} {}", Hex(record).to_string(), said(record))?,
                None => writeln!(f, "  ..")?,
            }
        }
        match program {
            Ok(listing) => writeln!(f, "  program: {}", around_difference(listing, model))?,
            Err(error) => writeln!(f, "  program: {error}")?,
        }
        let of_program = program.as_ref().map_or(&[][..], |listing| listing);
        writeln!(f, "  model:   {}", around_difference(model, of_program))
    }
}

/// All of a list, or its first and its last elements with nothing between.
fn first_and_last<T>(list: &[T]) -> Vec<Option<&T>> {
    if list.len() <= SHOWN {
        return list.iter().map(Some).collect();
    }
    let (first, last) = (&list[..SHOWN / 2], &list[list.len() - SHOWN / 2..]);
    first.iter().map(Some).chain([None]).chain(last.iter().map(Some)).collect()
}

struct Hex<'a>(&'a [u8]);

impl Display for Hex<'_> {
    fn fmt(&self, f: &mut Formatter) -> fmt::Result {
        for byte in self.0.iter().take(SHOWN) {
            write!(f, "{byte:02x}")?;
        }
        match self.0.len().saturating_sub(SHOWN) {
            0 => Ok(()),
            more => write!(f, " and {more} bytes more"),
        }
    }
}

/// What a record says.
fn said(record: &[u8]) -> String {
    let word = |at: usize| u32::from_be_bytes([record[at], record[at + 1], record[at + 2], record[at + 3]]);
    match record {
        [0, 0, 0] => "end".into(),
        [1, 0, 8, body @ ..] if body.len() == 8 => format!("write {:#x} at {:#010x}", word(7), word(3)),
        [2, 0, 4, body @ ..] if body.len() == 4 => format!("{} dots", word(3)),
        [6, 0, 2, high, low] => format!("line {}", u16::from_be_bytes([*high, *low])),
        [tag, high, low, body @ ..] => {
            let what = match tag {
                3 => "ID table",
                4 => "normal row",
                5 => "overlay row",
                _ => "tag",
            };
            format!("{what} {tag}, length {}, {} bytes there", u16::from_be_bytes([*high, *low]), body.len())
        }
        _ => "cut".into(),
    }
}

/// The lines of a listing about where it leaves another, and the number of the first that does.
fn around_difference(listing: &[u8], other: &[u8]) -> String {
    let lines: Vec<&[u8]> = listing.split_inclusive(|&byte| byte == b'\n').collect();
    let others = other.split_inclusive(|&byte| byte == b'\n');
    let alike = lines.iter().zip(others).take_while(|(line, other)| **line == *other).count();
    let shown = lines[alike.saturating_sub(3)..]
        .iter()
        .take(8)
        .map(|line| String::from_utf8_lossy(line).escape_debug().to_string());
    format!("{} lines, from line {} on {}", lines.len(), alike.saturating_sub(3), shown.collect::<Vec<_>>().join(" "))
}
