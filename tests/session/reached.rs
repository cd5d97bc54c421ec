//! The records by which a session comes to a state and a store.

use crate::model::chip::State;
use crate::model::registers::{COLOUR_MAP, STORE_WORDS};

use super::recorded;

/// Where the blocks of the store start, their addresses, and the bits that their words keep.
const BLOCKS: [(usize, u32, u32); 5] = [
    (0, 0x01_0000, 0x1FFF),
    (COLOUR_MAP, 0x02_0000, 0xFF_FFFF),
    (4640, 0x03_0000, 0xFF_FFFF),
    (4896, 0x04_0000, u32::MAX),
    (4960, 0x04_1000, 0xFF_FFFF),
];

const COLOURS: u32 = 0x02_0000;

/// The total at which every position is met, and the horizontal blank under which every dot of a fresh chip is blanked.
const LARGEST_TOTAL: u32 = 0x0FFF_0FFF;
const ALWAYS_BLANKED: u32 = 0x0001_0000;

/// Records after which a fresh chip has this state, and its store the kept bits of this one. No session has a state
/// against its rule, or another store.
pub fn records(state: &State, store: &[u32]) -> Option<Vec<Vec<u8>>> {
    if !state.good() || store.len() != STORE_WORDS {
        return None;
    }
    let mut records = stored(store);
    records.extend(placed(state));
    records.extend((0..).zip(state.control).filter(|(_, word)| *word != 0).map(|(number, word)| control(number, word)));
    let waiting = &state.queue.slots[..state.queue.waiting as usize];
    records.extend(waiting.iter().map(|write| recorded::write(COLOURS + 4 * write.entry, write.colour)));
    Some(records)
}

fn control(number: u32, word: u32) -> Vec<u8> {
    recorded::write(4 * number, word)
}

/// Writes of the words that aren't zero; colours are applied by blanked dots.
fn stored(store: &[u32]) -> Vec<Vec<u8>> {
    let ends = BLOCKS.iter().skip(1).map(|block| block.0).chain([store.len()]);
    let (mut records, mut colours) = (Vec::new(), Vec::new());
    for (&(start, from, kept), end) in BLOCKS.iter().zip(ends) {
        let words = (0..).zip(&store[start..end]).map(|(number, word)| (from + 4 * number, word & kept));
        let writes = words.filter(|(_, word)| *word != 0).map(|(address, word)| recorded::write(address, word));
        if from == COLOURS { &mut colours } else { &mut records }.extend(writes);
    }
    if !colours.is_empty() {
        records.push(control(4, ALWAYS_BLANKED));
        for writes in colours.chunks(64) {
            records.extend_from_slice(writes);
            records.push(recorded::dots(writes.len() as u32));
        }
        records.push(control(4, 0));
    }
    records
}

/// Dots up to the position.
fn placed(state: &State) -> Vec<Vec<u8>> {
    match state.at.x + 4096 * state.at.y {
        0 => Vec::new(),
        dots => vec![control(1, LARGEST_TOTAL), recorded::dots(dots), control(1, 0)],
    }
}
