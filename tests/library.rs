//! The proved library, called as C calls it.

// Each test uses a part of it.
#![allow(dead_code)]

use crate::answers::{Dotted, Drawn, ReadBack, Written};
use crate::model::chip::State;
use crate::model::step::{Held, Rooms, Stepped};

#[link(name = "bulitampaw", kind = "static")]
extern "C" {
    fn bulitampaw_fresh() -> State;
    fn bulitampaw_write(state: State, store: *mut u32, length: usize, address: u32, value: u32) -> Written;
    fn bulitampaw_read(state: State, store: *const u32, length: usize, address: u32) -> ReadBack;
    fn bulitampaw_dot(state: State, store: *mut u32, length: usize) -> Dotted;
    fn bulitampaw_dots(state: State, store: *mut u32, length: usize, count: u32) -> Dotted;
    fn bulitampaw_line(
        state: State,
        y: u32,
        store: *const u32,
        store_length: usize,
        table: *const u8,
        table_length: usize,
        normal: *const u8,
        normal_length: usize,
        overlay: *const u8,
        overlay_length: usize,
        output: *mut u32,
        output_length: usize,
    ) -> Drawn;
    fn bulitampaw_fresh_session() -> Held;
    fn bulitampaw_step(
        session: Held,
        bytes: *const u8,
        length: usize,
        place: usize,
        last: u32,
        store: *mut u32,
        store_length: usize,
        table: *mut u8,
        table_length: usize,
        normal: *mut u8,
        normal_length: usize,
        overlay: *mut u8,
        overlay_length: usize,
        output: *mut u32,
        output_length: usize,
        text: *mut u8,
        text_length: usize,
    ) -> Stepped;
    fn bulitampaw_entry_defined(entry: u32, depth: u32) -> u32;
    fn bulitampaw_signal_holds(on: u32, off: u32, p: u32) -> u32;
    fn bulitampaw_version_1() -> u32;
}

pub fn fresh() -> State {
    // SAFETY: nothing in, a value out.
    unsafe { bulitampaw_fresh() }
}

pub fn write(state: State, store: &mut [u32], address: u32, value: u32) -> Written {
    // SAFETY: the store is lent for the call with its own length, all else goes by value.
    unsafe { bulitampaw_write(state, store.as_mut_ptr(), store.len(), address, value) }
}

/// The store is borrowed as one that may change, so that the caller may look whether it did.
pub fn read(state: State, store: &mut [u32], address: u32) -> ReadBack {
    // SAFETY: as above.
    unsafe { bulitampaw_read(state, store.as_mut_ptr(), store.len(), address) }
}

pub fn dot(state: State, store: &mut [u32]) -> Dotted {
    // SAFETY: as above.
    unsafe { bulitampaw_dot(state, store.as_mut_ptr(), store.len()) }
}

pub fn dots(state: State, store: &mut [u32], count: u32) -> Dotted {
    // SAFETY: as above.
    unsafe { bulitampaw_dots(state, store.as_mut_ptr(), store.len(), count) }
}

/// What a line is lent, all borrowed as what may change, so that the caller may look whether it did.
pub struct Lent<'a> {
    pub store: &'a mut [u32],
    pub table: &'a mut [u8],
    pub normal: &'a mut [u8],
    pub overlay: &'a mut [u8],
    pub output: &'a mut [u32],
}

pub fn line(state: State, y: u32, lent: Lent) -> Drawn {
    let Lent { store, table, normal, overlay, output } = lent;
    // SAFETY: each part is lent for the call with its own length, and no two overlap.
    unsafe {
        bulitampaw_line(
            state,
            y,
            store.as_mut_ptr(),
            store.len(),
            table.as_mut_ptr(),
            table.len(),
            normal.as_mut_ptr(),
            normal.len(),
            overlay.as_mut_ptr(),
            overlay.len(),
            output.as_mut_ptr(),
            output.len(),
        )
    }
}

pub fn fresh_session() -> Held {
    // SAFETY: nothing in, a value out.
    unsafe { bulitampaw_fresh_session() }
}

/// The bytes are borrowed as what may change, so that the caller may look whether they did.
pub fn step(held: Held, bytes: &mut [u8], place: usize, last: u32, rooms: Rooms) -> Stepped {
    let Rooms { store, table, normal, overlay, output, text } = rooms;
    // SAFETY: each part is lent for the call with its own length, and no two overlap.
    unsafe {
        bulitampaw_step(
            held,
            bytes.as_mut_ptr(),
            bytes.len(),
            place,
            last,
            store.as_mut_ptr(),
            store.len(),
            table.as_mut_ptr(),
            table.len(),
            normal.as_mut_ptr(),
            normal.len(),
            overlay.as_mut_ptr(),
            overlay.len(),
            output.as_mut_ptr(),
            output.len(),
            text.as_mut_ptr(),
            text.len(),
        )
    }
}

pub fn entry_defined(entry: u32, depth: u32) -> u32 {
    // SAFETY: plain numbers in and out, and the function has no precondition.
    unsafe { bulitampaw_entry_defined(entry, depth) }
}

pub fn signal_holds(on: u32, off: u32, p: u32) -> u32 {
    // SAFETY: as above.
    unsafe { bulitampaw_signal_holds(on, off, p) }
}

pub fn version() -> u32 {
    // SAFETY: as above.
    unsafe { bulitampaw_version_1() }
}
