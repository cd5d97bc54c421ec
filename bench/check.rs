//! Plain Rust written for speed against the obvious model, before anything is measured.

mod dots;
mod lines;
mod sessions;

use crate::numbers::Numbers;

/// The seed of all that is drawn at random.
const SEED: u64 = 20_010_417;

/// Compares all, and panics with what differed.
pub fn all() {
    let mut numbers = Numbers::new(SEED);
    lines::compare(&mut numbers);
    dots::compare(&mut numbers);
    sessions::compare(&mut numbers);
}
