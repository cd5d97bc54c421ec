//! Runs of dots.

use crate::answers::Dotted;
use crate::by_value;
use crate::model::beam::Position;
use crate::model::chip::State;
use crate::model::queue::{Queue, Waiting};
use crate::model::registers::{COLOUR_ENTRIES, CONTROL_KEPT, STORE_WORDS};
use crate::numbers::Numbers;
use crate::plain;

/// How many random runs.
const RUNS: u32 = 20_000;

/// Random runs on random states: each answer, the state and the store after it.
pub fn compare(numbers: &mut Numbers) {
    for _ in 0..RUNS {
        let (mut state, count) = (state(numbers), count(numbers));
        if numbers.one_in(50) {
            state.at.x = 4096;
        }
        let length = if numbers.one_in(50) { STORE_WORDS - 1 } else { STORE_WORDS };
        let (mut quick, mut model) = (vec![0; length], vec![0; length]);
        let answers = (plain::dots(state, &mut quick, count), by_value::dots(state, &mut model, count));
        assert!(parts(&answers.0) == parts(&answers.1), "{count} dots answer another thing, {state}");
        assert!(quick == model, "{count} dots leave another store, {state}");
    }
}

/// All parts of an answer.
fn parts(answer: &Dotted) -> (State, [u32; 6]) {
    let Dotted { state, number, place, reported, hsync, vsync, blank } = *answer;
    (state, [number, place, reported, hsync, vsync, blank])
}

/// Mostly a few dots.
fn count(numbers: &mut Numbers) -> u32 {
    let bound = numbers.pick(&[3, 20, 200, 5000]);
    numbers.below(bound)
}

/// A state whose totals and windows are mostly small, with any number of writes that wait.
fn state(numbers: &mut Numbers) -> State {
    let mut control = CONTROL_KEPT.map(|kept| numbers.next() & kept);
    for word in &mut control[1..6] {
        let bound = numbers.pick(&[2, 9, 9, 9, 60, 4096]);
        *word = numbers.below(bound) | numbers.below(bound) << 16;
    }
    let bound = numbers.pick(&[2, 12, 4096]);
    let at = Position { x: numbers.below(bound), y: numbers.below(bound) };
    let waiting = numbers.pick(&[0, 1, 5, 64]);
    let slots = std::array::from_fn(|_| Waiting { entry: numbers.below(COLOUR_ENTRIES), colour: numbers.next() >> 8 });
    State { control, at, queue: Queue { waiting, slots } }
}
