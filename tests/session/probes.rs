//! Records that list what a session holds and doesn't list by itself.

use crate::model::registers::{COLOUR_ENTRIES, COLOUR_MAP};

use super::recorded;

/// The position, these words of the store where they are colours, and how many colour writes wait, each listed by records
/// that may be put behind any others.
pub fn probes(words: &[usize]) -> Vec<Vec<u8>> {
    let entries = words.iter().filter_map(|word| word.checked_sub(COLOUR_MAP)).map(|entry| entry as u32);
    let colours: Vec<_> = entries.filter(|entry| *entry < COLOUR_ENTRIES).flat_map(colour).collect();
    let position = vec![recorded::dots(0)];
    let room = vec![recorded::write(0x02_0000, 0); 64];
    [position, screen(), colours, room].concat()
}

/// One pixel of depth 16 without any layer above it.
fn screen() -> Vec<Vec<u8>> {
    [(0x00, 0), (0x04, 0), (0x18, 0), (0x1C, 0)].map(|(address, value)| recorded::write(address, value)).to_vec()
}

/// A line of one pixel that shows an entry of the colour map, past gamma.
fn colour(entry: u32) -> Vec<Vec<u8>> {
    let window_entry = 0x200 | entry / 256 << 4;
    let sample = (entry % 256) as u8;
    vec![recorded::write(0x01_0000, window_entry), recorded::normal(&[0, sample]), recorded::line(0)]
}
