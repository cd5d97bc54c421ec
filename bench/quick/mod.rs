//! The chip and sessions in plain Rust written for speed: what the proved code is measured beside.

// The benchmark and the program use a part of it each.
#![allow(dead_code)]

pub mod chip;
mod cursor;
mod dots;
mod entry;
mod formats;
mod gamma;
mod line;
mod maps;
mod overlay;
mod pixels;
mod records;
mod runs;
pub mod session;
pub mod step;
mod text;

pub use line::line;
