//! Calls on a chip that keeps its rule, with a store of the right length.

use super::dots;
use crate::model::beam::Signals;
use crate::model::chip::{Refusal, State};
use crate::model::queue::Waiting;
use crate::model::registers::{Register, STORE_WORDS};

/// The bits of an address that count.
const PLACE: u32 = 0x00FF_FFFF;

/// Writes a register at once, or lets a colour write join the queue.
pub fn write(state: &mut State, store: &mut [u32], address: u32, value: u32) -> Result<(), Refusal> {
    let place = address & PLACE;
    let register = Register::at(place).ok_or((1, place))?;
    match register {
        Register::Room | Register::Position => return Err((2, place)),
        _ if value & !register.kept() != 0 => return Err((3, place)),
        Register::Control(word) => state.control[word] = value,
        Register::Colour(entry) => state.queue.push(Waiting { entry, colour: value }).ok_or((4, place))?,
        Register::Stored { index, .. } => store[index] = value,
    }
    Ok(())
}

/// Makes some dots on any state and store, or refuses them by 11 and 5.
pub fn checked_dots(state: &mut State, store: &mut [u32], count: u32) -> Result<Option<Signals>, Refusal> {
    if !state.good() {
        Err((11, 0))
    } else if store.len() != STORE_WORDS {
        Err((5, 1))
    } else {
        Ok(dots::dots(state, store, count))
    }
}
