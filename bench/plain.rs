//! Plain Rust behind the library's interface: state and session go in and come back by value. Single calls are the
//! model's.

// A slice goes as its pointer and its length, as in the library.
#![allow(improper_ctypes_definitions)]

use crate::answers::Drawn;
pub use crate::by_value::{dot, dots, read, write};
use crate::model::chip::State;
use crate::model::line::Lent;
use crate::model::step::{Held, Rooms, Stepped};
use crate::quick::{self, step};

/// One drawn line.
#[export_name = "quick_line"]
#[inline(never)]
pub extern "C" fn line(
    state: State,
    y: u32,
    store: &[u32],
    table: &[u8],
    normal: &[u8],
    overlay: &[u8],
    output: &mut [u32],
) -> Drawn {
    let (number, place) = quick::line(&state, y, Lent { store, table, normal, overlay }, output).err().unwrap_or_default();
    Drawn { state, number, place }
}

/// One step of a session.
#[export_name = "quick_step"]
#[inline(never)]
pub extern "C" fn step(
    held: Held,
    bytes: &[u8],
    place: usize,
    last: u32,
    store: &mut [u32],
    table: &mut [u8],
    normal: &mut [u8],
    overlay: &mut [u8],
    output: &mut [u32],
    text: &mut [u8],
) -> Stepped {
    step::step(held, bytes, place, last != 0, Rooms { store, table, normal, overlay, output, text })
}

/// The same with its rooms as one.
pub fn step_in(held: Held, bytes: &[u8], place: usize, last: u32, rooms: Rooms) -> Stepped {
    let Rooms { store, table, normal, overlay, output, text } = rooms;
    step(held, bytes, place, last, store, table, normal, overlay, output, text)
}
