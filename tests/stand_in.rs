//! The plain model under the library's names, as many as the examples call, to be linked in the library's place.

mod answers;
mod by_value;
mod model;

use std::slice::{from_raw_parts, from_raw_parts_mut};

use answers::{Dotted, Drawn, Written};
use model::chip::State;
use model::line::Lent;
use model::step::{Held, Rooms, Stepped};

#[no_mangle]
pub extern "C" fn bulitampaw_version_1() -> u32 {
    1
}

#[no_mangle]
pub extern "C" fn bulitampaw_fresh() -> State {
    State::FRESH
}

/// # Safety
/// The store is lent with its own length, as in every call below.
#[no_mangle]
pub unsafe extern "C" fn bulitampaw_write(
    state: State,
    store: *mut u32,
    length: usize,
    address: u32,
    value: u32,
) -> Written {
    by_value::write(state, from_raw_parts_mut(store, length), address, value)
}

/// # Safety
/// As above.
#[no_mangle]
pub unsafe extern "C" fn bulitampaw_dot(state: State, store: *mut u32, length: usize) -> Dotted {
    by_value::dot(state, from_raw_parts_mut(store, length))
}

/// # Safety
/// As above.
#[no_mangle]
pub unsafe extern "C" fn bulitampaw_dots(state: State, store: *mut u32, length: usize, count: u32) -> Dotted {
    by_value::dots(state, from_raw_parts_mut(store, length), count)
}

/// # Safety
/// As above; the output overlaps nothing else.
#[no_mangle]
pub unsafe extern "C" fn bulitampaw_line(
    state: State,
    y: u32,
    store: *const u32,
    store_length: usize,
    table: *const u8,
    table_length: usize,
    normal: *const u8,
    normal_length: usize,
    overlay: *const u8,
    overlay_length: usize,
    output: *mut u32,
    output_length: usize,
) -> Drawn {
    let lent = Lent {
        store: from_raw_parts(store, store_length),
        table: from_raw_parts(table, table_length),
        normal: from_raw_parts(normal, normal_length),
        overlay: from_raw_parts(overlay, overlay_length),
    };
    let drawn = state.line(y, lent, from_raw_parts_mut(output, output_length));
    let (number, place) = drawn.err().unwrap_or_default();
    Drawn { state, number, place }
}

#[no_mangle]
pub extern "C" fn bulitampaw_fresh_session() -> Held {
    Held::FRESH
}

/// # Safety
/// As above; no two of what is lent overlap.
#[no_mangle]
pub unsafe extern "C" fn bulitampaw_step(
    held: Held,
    bytes: *const u8,
    length: usize,
    place: usize,
    last: u32,
    store: *mut u32,
    store_length: usize,
    table: *mut u8,
    table_length: usize,
    normal: *mut u8,
    normal_length: usize,
    overlay: *mut u8,
    overlay_length: usize,
    output: *mut u32,
    output_length: usize,
    text: *mut u8,
    text_length: usize,
) -> Stepped {
    let rooms = Rooms {
        store: from_raw_parts_mut(store, store_length),
        table: from_raw_parts_mut(table, table_length),
        normal: from_raw_parts_mut(normal, normal_length),
        overlay: from_raw_parts_mut(overlay, overlay_length),
        output: from_raw_parts_mut(output, output_length),
        text: from_raw_parts_mut(text, text_length),
    };
    model::step::step(held, from_raw_parts(bytes, length), place, last != 0, rooms)
}
