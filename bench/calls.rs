//! Calls on a chip: the proved library's, and those of plain Rust behind the library's interface.

use std::hint::black_box;

use crate::library;
use crate::model::chip::State;
use crate::model::registers::STORE_WORDS;
use crate::plain;

/// A state and its store.
#[derive(Clone, PartialEq)]
pub struct Chip {
    pub state: State,
    store: Vec<u32>,
}

impl Chip {
    /// A state with a store of zeros.
    pub fn new(state: State) -> Self {
        Self { state, store: vec![0; STORE_WORDS] }
    }
}

/// Whose calls they are. A read answers the word, every other call its number.
pub trait Calls {
    fn write(chip: &mut Chip, address: u32, value: u32) -> u32;
    fn read(chip: &mut Chip, address: u32) -> u32;
    fn dot(chip: &mut Chip) -> u32;
    fn dots(chip: &mut Chip, count: u32) -> u32;
}

/// Calls of a module whose functions take the state by value and hand it back.
macro_rules! calls_of {
    ($whose:ident, $module:ident) => {
        impl Calls for $whose {
            fn write(chip: &mut Chip, address: u32, value: u32) -> u32 {
                let answer = $module::write(chip.state, &mut chip.store, black_box(address), black_box(value));
                chip.state = black_box(&answer).state;
                answer.number
            }

            fn read(chip: &mut Chip, address: u32) -> u32 {
                let answer = $module::read(chip.state, &mut chip.store, black_box(address));
                chip.state = black_box(&answer).state;
                answer.word
            }

            fn dot(chip: &mut Chip) -> u32 {
                let answer = $module::dot(chip.state, &mut chip.store);
                chip.state = black_box(&answer).state;
                answer.number
            }

            fn dots(chip: &mut Chip, count: u32) -> u32 {
                let answer = $module::dots(chip.state, &mut chip.store, black_box(count));
                chip.state = black_box(&answer).state;
                answer.number
            }
        }
    };
}

/// The proved library's.
pub struct Library;

calls_of!(Library, library);

/// Those of plain Rust.
pub struct Plain;

calls_of!(Plain, plain);
