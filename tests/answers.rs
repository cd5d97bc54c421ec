//! What calls on the chip answer to C.

// Each test uses a part of it.
#![allow(dead_code)]

use crate::model::chip::State;

/// What a write answers.
#[repr(C)]
#[derive(Clone, Copy)]
pub struct Written {
    pub state: State,
    pub number: u32,
    pub place: u32,
}

/// What a read answers.
#[repr(C)]
#[derive(Clone, Copy)]
pub struct ReadBack {
    pub state: State,
    pub number: u32,
    pub place: u32,
    pub word: u32,
}

/// What one dot or a run of dots answers.
#[repr(C)]
#[derive(Clone, Copy)]
pub struct Dotted {
    pub state: State,
    pub number: u32,
    pub place: u32,
    pub reported: u32,
    pub hsync: u32,
    pub vsync: u32,
    pub blank: u32,
}

/// What a line answers.
#[repr(C)]
#[derive(Clone, Copy)]
pub struct Drawn {
    pub state: State,
    pub number: u32,
    pub place: u32,
}
