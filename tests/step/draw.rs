//! Random sequences of steps.

use crate::damage;
use crate::files::recorded;
use crate::model::chip::State;
use crate::model::registers::{COLOUR_ENTRIES, COLOUR_KEPT};
use crate::model::step::Held;
use crate::numbers::Numbers;
use crate::rooms::{Fill, MARGIN, RIGHT};
use crate::sequences::{Damage, Sequence, Whim};
use crate::session;

/// A file, whole or damaged, stepped through in pieces; in every second one some steps are damaged too.
pub fn sequence(numbers: &mut Numbers) -> Sequence {
    let file = file(numbers);
    let damaged = numbers.one_in(2);
    let pieces = Pieces::new(numbers);
    let whims = (0..file.len().min(300)).map(|_| whim(numbers, pieces, damaged)).collect();
    let seed = u64::from(numbers.next());
    let fill = numbers.pick(&[Fill::Session(seed), Fill::Session(seed), Fill::Numbers(seed)]);
    let start = if numbers.one_in(8) { held(numbers) } else { Held::FRESH };
    Sequence { start, fill, file, whims }
}

/// A session, damaged or not, or any bytes.
fn file(numbers: &mut Numbers) -> Vec<u8> {
    match numbers.below(16) {
        0 => (0..numbers.below(40)).map(|_| numbers.pick(&[0, 0, 1, 2, 3, 4, 5, 6, 8, 255])).collect(),
        1 => (0..numbers.below(60)).flat_map(|_| any_record(numbers)).collect(),
        2..=8 => session::session(numbers).concat(),
        _ => {
            let records = session::session(numbers);
            damage::damaged(numbers, records)
        }
    }
}

/// A record of any tag with a short body that the tag may not allow.
fn any_record(numbers: &mut Numbers) -> Vec<u8> {
    let tag = numbers.below(7) as u8;
    let right = [0, 8, 4, numbers.below(30), numbers.below(30), numbers.below(30), 2][usize::from(tag)];
    let length = if numbers.one_in(60) { numbers.below(12) } else { right };
    let body: Vec<u8> = (0..length).map(|_| numbers.next() as u8 >> numbers.pick(&[0, 4, 7])).collect();
    recorded::record(tag, &body)
}

/// A session that keeps its rule, some time after its start.
fn held(numbers: &mut Numbers) -> Held {
    let count = |numbers: &mut Numbers, most: usize| match numbers.below(4) {
        0 => most,
        1 => most - numbers.below(9) as usize,
        _ => numbers.below(most as u32 + 1) as usize,
    };
    let any = numbers.next();
    Held {
        state: State::FRESH,
        table: count(numbers, RIGHT[1]),
        normal: count(numbers, RIGHT[2]),
        overlay: count(numbers, RIGHT[3]),
        records: numbers.pick(&[0, 999_950, 999_999, 1_000_000, 1_000_001, any, u32::MAX]),
    }
}

/// How a file is cut: how many bytes come at a time at most, or all of them at once.
#[derive(Clone, Copy)]
struct Pieces(Option<u32>);

impl Pieces {
    fn new(numbers: &mut Numbers) -> Self {
        Self(numbers.pick(&[None, None, None, Some(4), Some(20), Some(100), Some(1000), Some(5000)]))
    }
}

fn whim(numbers: &mut Numbers, pieces: Pieces, damaged: bool) -> Whim {
    let any = numbers.next();
    Whim {
        before: numbers.pick(&[0, 0, 1, 7, usize::MAX]),
        more: pieces.0.map_or(usize::MAX, |most| numbers.below(most) as usize),
        last: numbers.pick(&[0, 1, 1, 1, 1, 2, 256, 0x8000_0000, any | 1]),
        damage: if damaged && numbers.one_in(3) {
            (0..=numbers.below(2)).map(|_| self::damage(numbers)).collect()
        } else {
            Vec::new()
        },
    }
}

fn damage(numbers: &mut Numbers) -> Damage {
    match numbers.below(16) {
        0 => Damage::Control { word: numbers.below(9) as usize, bit: numbers.below(32) },
        1 => Damage::X(around(numbers, 4096) as u32),
        2 => Damage::Waiting(around(numbers, 65) as u32),
        3 => Damage::Slot {
            slot: numbers.below(4) as usize,
            entry: around(numbers, COLOUR_ENTRIES) as u32,
            colour: numbers.next() & COLOUR_KEPT,
        },
        4 => Damage::Table(around(numbers, 65_537)),
        5 => Damage::Normal(around(numbers, 8193)),
        6 => Damage::Overlay(around(numbers, 2049)),
        7 => Damage::Records(around(numbers, 1_000_000) as u32),
        8..=9 => {
            let any = numbers.below(100) as usize;
            Damage::Place(numbers.pick(&[0, 1, any, usize::MAX - 3, usize::MAX - 2, usize::MAX, 1 << 32]))
        }
        _ => length(numbers),
    }
}

/// One room of another length.
fn length(numbers: &mut Numbers) -> Damage {
    let room = numbers.below(6) as usize;
    let right = RIGHT[room];
    let any = numbers.below(right as u32) as usize;
    let more = numbers.below(MARGIN as u32 + 1) as usize;
    Damage::Length { room, length: numbers.pick(&[0, 1, right - 1, right, right + 1, any, right + more]) }
}

/// Near a bound or far beyond it.
fn around(numbers: &mut Numbers, bound: u32) -> usize {
    let bound = bound as usize;
    let any = numbers.next() as usize;
    numbers.pick(&[bound - 1, bound, bound + 1, any, usize::MAX])
}
