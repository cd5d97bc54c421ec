//! The plain model behind the library's interface: the state goes in and comes back by value. Shows what the interface costs.

// A slice goes as its pointer and its length, as in the library.
#![allow(improper_ctypes_definitions)]

use crate::answers::{Dotted, ReadBack, Written};
use crate::model::beam::Signals;
use crate::model::chip::{Refusal, State};

/// One register write.
#[export_name = "model_write"]
#[inline(never)]
pub extern "C" fn write(mut state: State, store: &mut [u32], address: u32, value: u32) -> Written {
    let (number, place) = state.write(store, address, value).err().unwrap_or_default();
    Written { state, number, place }
}

/// One register read.
#[export_name = "model_read"]
#[inline(never)]
pub extern "C" fn read(state: State, store: &[u32], address: u32) -> ReadBack {
    match state.read(store, address) {
        Ok(word) => ReadBack { state, number: 0, place: 0, word },
        Err((number, place)) => ReadBack { state, number, place, word: 0 },
    }
}

/// One dot.
#[export_name = "model_dot"]
#[inline(never)]
pub extern "C" fn dot(mut state: State, store: &mut [u32]) -> Dotted {
    let answer = state.dot(store).map(Some);
    dotted(state, answer)
}

/// So many dots.
#[export_name = "model_dots"]
#[inline(never)]
pub extern "C" fn dots(mut state: State, store: &mut [u32], count: u32) -> Dotted {
    let answer = state.dots(store, count);
    dotted(state, answer)
}

/// What dots answer.
fn dotted(state: State, answer: Result<Option<Signals>, Refusal>) -> Dotted {
    let (number, place) = answer.err().unwrap_or_default();
    let signals = answer.ok().flatten();
    let [hsync, vsync, blank] =
        signals.map_or([0; 3], |signals| [signals.hsync, signals.vsync, signals.blank].map(u32::from));
    Dotted { state, number, place, reported: signals.is_some().into(), hsync, vsync, blank }
}
