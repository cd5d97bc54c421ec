//! Cases that no session file can show, each with answers worked out by hand from the paper.

mod dots;
mod refusals;
mod registers;

use crate::model::beam::Position;
use crate::model::chip::State;
use crate::model::queue::Waiting;
use crate::pair::{Call, Compared, Pair};

/// What a case shows, and the case.
pub type Vector = (&'static str, fn(&mut Pair) -> Compared<()>);

pub fn all() -> Vec<Vector> {
    [&registers::VECTORS[..], &refusals::VECTORS, &dots::VECTORS].concat()
}

/// Bits 31..24 that an address may have.
const TOPS: [u32; 4] = [0x0000_0000, 0x0100_0000, 0x8000_0000, 0xFF00_0000];

/// The blocks of the store: first address, first word, words, kept bits.
const BLOCKS: [(u32, u32, u32, u32); 5] = [
    (0x01_0000, 0, 32, 0x0000_1FFF),
    (0x02_0000, 32, 4608, 0x00FF_FFFF),
    (0x03_0000, 4640, 256, 0x00FF_FFFF),
    (0x04_0000, 4896, 64, 0xFFFF_FFFF),
    (0x04_1000, 4960, 3, 0x00FF_FFFF),
];

const COLOUR_MAP: u32 = 0x02_0000;

/// The bits that each control word keeps.
fn control_kept(word: usize) -> u32 {
    match word {
        0 => 0x0000_001F,
        7 => 0x07FF_07FF,
        _ => 0x0FFF_0FFF,
    }
}

/// A control word of two fields.
fn fields(low: u32, high: u32) -> u32 {
    low | high << 16
}

fn write(address: u32, value: u32) -> Call {
    Call::Write { address, value }
}

fn read(address: u32) -> Call {
    Call::Read { address }
}

fn at(x: u32, y: u32) -> Position {
    Position { x, y }
}

/// A state with something in each part that keeps its rule, never blanked.
fn busy_state() -> State {
    let mut state = waiting_state(3);
    state.control = [0x15, 0x0123_0456, 0x0007_0007, 0x0001_0002, 0, 0, 0x0FFF_0001, 0x07FF_07FE, 0x0002_0FFF];
    state.at = at(0x321, 0x0BC);
    state
}

/// So many waiting writes, all different, in a state that is fresh otherwise.
fn waiting_state(waiting: u32) -> State {
    let mut state = State::FRESH;
    state.queue.waiting = waiting;
    for (slot, number) in state.queue.slots[..waiting as usize].iter_mut().zip(0..) {
        *slot = Waiting { entry: 4607 - number, colour: 0xFF_FF00 + number };
    }
    state
}
