//! A plain model of the chip and of sessions, written from the paper alone, that the proved code is compared with.

// Each test uses a part of it.
#![allow(dead_code)]

pub mod beam;
pub mod chip;
pub mod colour;
pub mod cursor;
pub mod frames;
pub mod line;
pub mod listing;
pub mod pixel;
pub mod queue;
pub mod reads;
pub mod records;
pub mod registers;
pub mod screen;
pub mod session;
pub mod step;
pub mod store;
pub mod timing;
pub mod windows;
