//! Window IDs.

use super::chip::Refusal;

/// How many frame entries are looked at.
const FRAME_ENTRIES: usize = 2048;

/// The longest table.
pub const TABLE_BYTES: usize = 65_536;

/// An entry of the frame table.
pub struct FrameEntry {
    pub yend: u32,
    block: usize,
    offset: usize,
}

impl FrameEntry {
    fn new(word: u32) -> Self {
        Self { yend: word >> 16 & 0x7FF, block: (word >> 8 & 0x7F) as usize, offset: (word & 0xFF) as usize }
    }

    /// Where the line table starts and ends.
    pub fn line_table(&self, table_bytes: usize) -> std::ops::Range<usize> {
        let start = 512 * self.block + 2 * self.offset;
        let end = (512 * (self.block + 1)).min(table_bytes);
        start.min(end)..end
    }
}

/// The frame entries of a table, in order.
pub fn frame_entries(table: &[u8]) -> impl Iterator<Item = FrameEntry> + '_ {
    let whole = table.chunks_exact(4).take(FRAME_ENTRIES);
    whole.map(|bytes| FrameEntry::new(u32::from_be_bytes([bytes[0], bytes[1], bytes[2], bytes[3]])))
}

/// An entry of a line table.
pub struct LineEntry {
    pub xend: u32,
    pub id: u32,
}

impl LineEntry {
    fn new(word: u16) -> Self {
        Self { xend: u32::from(word >> 5), id: u32::from(word & 0x1F) }
    }
}

/// The entries of a line table, in order.
pub fn line_entries(line_table: &[u8]) -> impl Iterator<Item = LineEntry> + '_ {
    line_table.chunks_exact(2).map(|bytes| LineEntry::new(u16::from_be_bytes([bytes[0], bytes[1]])))
}

/// The pixels from `first` to before `past`, all of one window.
#[derive(Clone, Copy)]
pub struct Run {
    pub first: u32,
    pub past: u32,
    pub id: u32,
}

/// The runs of a line of so many pixels, from left to right, up to the first pixel that has no line entry.
pub fn runs(table: &[u8], y: u32, width: u32) -> Result<impl Iterator<Item = Result<Run, Refusal>> + '_, Refusal> {
    let frame_entry = frame_entries(table).find(|entry| entry.yend >= y).ok_or((7, y))?;
    let mut entries = line_entries(&table[frame_entry.line_table(table.len())]);
    let mut first = 0;
    Ok(std::iter::from_fn(move || {
        if first >= width {
            return None;
        }
        let Some(entry) = entries.find(|entry| entry.xend >= first) else {
            let refusal = (8, first);
            first = width;
            return Some(Err(refusal));
        };
        let run = Run { first, past: width.min(entry.xend + 1), id: entry.id };
        first = run.past;
        Some(Ok(run))
    }))
}
