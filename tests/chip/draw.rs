//! Random states, calls and sequences.

use crate::model::beam::Position;
use crate::model::chip::State;
use crate::model::queue::{Queue, Waiting};
use crate::model::registers::{COLOUR_ENTRIES, COLOUR_KEPT, CONTROL_KEPT, STORE_WORDS};
use crate::numbers::Numbers;
use crate::pair::{Call, Fill};
use crate::sequences::{Damage, Sequence, Step};

/// A sequence from a state that keeps its rule, some of its calls lent what they refuse.
pub fn sequence(numbers: &mut Numbers) -> Sequence {
    let start = if numbers.one_in(3) { State::FRESH } else { good_state(numbers) };
    let fill = fill(numbers);
    let mix = numbers.pick(&MIXES);
    let steps = (0..=numbers.below(250)).map(|_| step(numbers, mix)).collect();
    Sequence { start, fill, steps }
}

pub fn good_state(numbers: &mut Numbers) -> State {
    let fields = if numbers.one_in(4) { Numbers::next } else { two_fields };
    let control = CONTROL_KEPT.map(|kept| fields(numbers) & kept);
    let at = Position { x: coordinate(numbers), y: coordinate(numbers) };
    State { control, at, queue: queue(numbers) }
}

pub fn fill(numbers: &mut Numbers) -> Fill {
    match numbers.below(4) {
        0 => Fill::Zeros,
        1 => Fill::Ones,
        _ => Fill::Numbers(numbers.next().into()),
    }
}

/// Mostly small, so that frames are short and windows are met.
fn two_fields(numbers: &mut Numbers) -> u32 {
    match numbers.below(8) {
        0 => numbers.next(),
        1 => numbers.below(9) * 0x1_0001,
        _ => numbers.below(9) | numbers.below(9) << 16,
    }
}

fn coordinate(numbers: &mut Numbers) -> u32 {
    match numbers.below(8) {
        0 => numbers.below(4096),
        1 => 4095,
        _ => numbers.below(10),
    }
}

fn queue(numbers: &mut Numbers) -> Queue {
    let mut queue = Queue::EMPTY;
    queue.waiting = match numbers.below(4) {
        0 => 0,
        1 => 64,
        2 => numbers.below(4),
        _ => numbers.below(65),
    };
    let (waiting, dead) = queue.slots.split_at_mut(queue.waiting as usize);
    waiting.fill_with(|| Waiting { entry: entry(numbers), colour: numbers.next() & COLOUR_KEPT });
    if numbers.one_in(2) {
        dead.fill_with(|| Waiting { entry: numbers.next(), colour: numbers.next() });
    }
    queue
}

/// Few enough that some wait twice.
fn entry(numbers: &mut Numbers) -> u32 {
    match numbers.below(3) {
        0 => numbers.below(COLOUR_ENTRIES),
        1 => COLOUR_ENTRIES - 1 - numbers.below(3),
        _ => numbers.below(5),
    }
}

fn step(numbers: &mut Numbers, mix: &[Draw]) -> Step {
    let call = numbers.pick(mix)(numbers);
    let length = if numbers.one_in(32) { wrong_length(numbers) } else { STORE_WORDS };
    let damage =
        if numbers.one_in(16) { (0..=numbers.below(2)).map(|_| damage(numbers)).collect() } else { Vec::new() };
    Step { damage, length, call }
}

fn wrong_length(numbers: &mut Numbers) -> usize {
    let (less, more) = (numbers.below(4963) as usize, 4964 + numbers.below(60) as usize);
    numbers.pick(&[0, 1, 4962, 4964, less, more])
}

fn damage(numbers: &mut Numbers) -> Damage {
    let slot = numbers.below(64) as usize;
    match numbers.below(6) {
        0 => Damage::Control { word: numbers.below(9) as usize, bit: numbers.below(32) },
        1 => Damage::X(around(numbers, 4096)),
        2 => Damage::Y(around(numbers, 4096)),
        3 => Damage::Waiting(around(numbers, 65)),
        4 => Damage::Entry { slot, entry: around(numbers, COLOUR_ENTRIES) },
        _ => Damage::Colour { slot, colour: around(numbers, COLOUR_KEPT + 1) },
    }
}

/// Near a bound or far beyond it.
fn around(numbers: &mut Numbers, bound: u32) -> u32 {
    let any = numbers.next();
    numbers.pick(&[bound - 1, bound, bound + 1, u32::MAX, any])
}

type Draw = fn(&mut Numbers) -> Call;

/// What kinds of calls a sequence is made of.
const MIXES: [&[Draw]; 5] = [
    &[control_write, colour_write, any_write, any_read, any_read, one_dot, run_of_dots],
    &[colour_write, colour_write, colour_write, colour_write, any_write, any_read, one_dot],
    &[colour_write, any_read, any_read, one_dot, one_dot, run_of_dots],
    &[control_write, colour_write, any_read, one_dot, run_of_dots, run_of_dots],
    &[any_write, any_read, any_read, one_dot, run_of_dots, run_of_dots, run_of_dots],
];

fn control_write(numbers: &mut Numbers) -> Call {
    let word = numbers.below(9);
    let kept = CONTROL_KEPT[word as usize];
    Call::Write { address: top(numbers) | (4 * word), value: two_fields(numbers) & kept | stray(numbers) }
}

fn colour_write(numbers: &mut Numbers) -> Call {
    let address = top(numbers) | (0x02_0000 + 4 * entry(numbers));
    Call::Write { address, value: numbers.next() & COLOUR_KEPT | stray(numbers) }
}

fn any_write(numbers: &mut Numbers) -> Call {
    let value = numbers.next() >> numbers.pick(&[0, 8, 19, 27]);
    Call::Write { address: any_address(numbers), value }
}

fn any_read(numbers: &mut Numbers) -> Call {
    Call::Read { address: any_address(numbers) }
}

fn one_dot(_: &mut Numbers) -> Call {
    Call::Dot
}

/// Mostly short; the longest that there can be is met too.
fn run_of_dots(numbers: &mut Numbers) -> Call {
    let bound = numbers.pick(&[1, 2, 12, 12, 80, 80, 200, 2000]);
    let count = match numbers.below(64) {
        0 => numbers.next() >> numbers.below(16),
        1 => u32::MAX - numbers.below(3),
        _ => numbers.below(bound),
    };
    Call::Dots { count }
}

/// Seldom a bit that may be outside the kept ones.
fn stray(numbers: &mut Numbers) -> u32 {
    if numbers.one_in(16) {
        1 << numbers.below(32)
    } else {
        0
    }
}

/// Bits 31..24 of an address.
fn top(numbers: &mut Numbers) -> u32 {
    if numbers.one_in(4) {
        numbers.next() << 24
    } else {
        0
    }
}

/// First address and words of each block.
const BLOCKS: [(u32, u32); 6] =
    [(0x00_0000, 11), (0x01_0000, 32), (0x02_0000, 4608), (0x03_0000, 256), (0x04_0000, 64), (0x04_1000, 3)];

/// Mostly of a register, else near one or anywhere.
fn any_address(numbers: &mut Numbers) -> u32 {
    let (from, words) = numbers.pick(&BLOCKS);
    let near = match numbers.below(16) {
        0 => numbers.next(),
        1 => from + 4 * words,
        2 => from.wrapping_sub(4),
        3 => from + numbers.below(4 * words),
        _ => from + 4 * numbers.below(words),
    };
    top(numbers) ^ near
}
