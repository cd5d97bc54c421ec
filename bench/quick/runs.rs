//! The runs of a line by its ID table.

use super::entry::Entry;
use crate::model::chip::Refusal;

/// How many frame entries are looked at.
const FRAME_ENTRIES: usize = 2048;

/// The bytes of a block of line entries.
const BLOCK: usize = 512;

/// The most runs of a line: as many as a block has entries.
pub const MOST_RUNS: usize = BLOCK / 2;

/// Pixels of one window, from where the run before them ends up to before `past`.
#[derive(Clone, Copy)]
pub struct Run {
    pub past: u16,
    pub entry: Entry,
}

impl Run {
    /// Fills room that no run was put into.
    pub const NONE: Self = Self { past: 0, entry: Entry::NONE };
}

/// Puts the runs of a line into a room. Refuses by 7, and then from the left by 8 and 9.
pub fn find<'a>(
    room: &'a mut [Run; MOST_RUNS],
    table: &[u8],
    y: u32,
    width: u32,
    entry: impl Fn(usize) -> Option<Entry>,
) -> Result<&'a [Run], Refusal> {
    let line_table = line_table(table, y).ok_or((7, y))?;
    let (mut first, mut count) = (0, 0);
    for bytes in line_table.as_chunks::<2>().0 {
        let word = u16::from_be_bytes(*bytes);
        if u32::from(word >> 5) < first {
            continue;
        }
        let past = width.min(u32::from(word >> 5) + 1);
        let entry = entry(usize::from(word & 31)).ok_or((9, first))?;
        room[count] = Run { past: past as u16, entry };
        (first, count) = (past, count + 1);
        if first == width {
            return Ok(&room[..count]);
        }
    }
    Err((8, first))
}

/// The line table of the first frame entry that serves a line.
fn line_table(table: &[u8], y: u32) -> Option<&[u8]> {
    let frame_entries = table.as_chunks::<4>().0.iter().take(FRAME_ENTRIES);
    let word = frame_entries.map(|bytes| u32::from_be_bytes(*bytes)).find(|word| word >> 16 & 0x7FF >= y)?;
    let (block, offset) = ((word >> 8 & 0x7F) as usize, (word & 0xFF) as usize);
    let end = table.len().min(BLOCK * (block + 1));
    Some(table.get(BLOCK * block + 2 * offset..end).unwrap_or_default())
}
