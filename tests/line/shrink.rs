//! How a line that shows a difference is made small.

use std::ops::Range;

use crate::case::Case;
use crate::model::beam::Position;
use crate::model::queue::Queue;
use crate::model::registers::STORE_WORDS;
use crate::pair::{Difference, Pair};

/// The difference of a case that still shows one: plainer where that will do, and short.
pub fn smallest(mut difference: Box<Difference>) -> Box<Difference> {
    let mut pair = Pair::new();
    loop {
        let plainer = PLAINER.iter().find_map(|plainer| {
            let mut candidate = difference.case.clone();
            plainer(&mut candidate);
            let smaller = size(&candidate) < size(&difference.case);
            if smaller {
                pair.lend(&candidate).err()
            } else {
                None
            }
        });
        match plainer {
            Some(found) => difference = found,
            None => return emptied(difference, &mut pair),
        }
    }
}

/// Puts zeros for parts of what is lent, long ones first, as long as the case still shows a difference.
fn emptied(mut difference: Box<Difference>, pair: &mut Pair) -> Box<Difference> {
    let Case { store, table, normal, overlay, .. } = &difference.case;
    for (part, length) in PARTS.iter().zip([store.len(), table.len(), normal.len(), overlay.len()]) {
        let mut size = length;
        while size > 0 {
            for from in (0..length).step_by(size) {
                let mut candidate = difference.case.clone();
                if part(&mut candidate, from..length.min(from + size)) {
                    difference = pair.lend(&candidate).err().unwrap_or(difference);
                }
            }
            size /= 2;
        }
    }
    difference
}

/// Ways to put zeros into a range of store, table, normal row or overlay row; each answers whether that changed anything.
const PARTS: [fn(&mut Case, Range<usize>) -> bool; 4] = [
    |case, range| zeroed(&mut case.store[range]),
    |case, range| zeroed(&mut case.table[range]),
    |case, range| zeroed(&mut case.normal[range]),
    |case, range| zeroed(&mut case.overlay[range]),
];

fn zeroed<T: Copy + Default + PartialEq>(part: &mut [T]) -> bool {
    let changes = part.iter().any(|element| *element != T::default());
    part.fill(T::default());
    changes
}

/// How much there is to look at in a case.
fn size(case: &Case) -> usize {
    let Case { state, y: _, store, table, normal, overlay, output } = case;
    let words = store.iter().chain(output).chain(&state.control).filter(|&&word| word != 0).count();
    let bytes = table.iter().chain(normal).chain(overlay).filter(|&&byte| byte != 0).count();
    let bits = state.control[0].count_ones() as usize;
    let numbers = state.at.x as usize + state.at.y as usize + state.queue.waiting as usize;
    words
        + bytes
        + bits
        + numbers
        + store.len().abs_diff(STORE_WORDS)
        + table.len()
        + normal.len()
        + overlay.len()
        + output.len()
}

/// Ways to make a case plainer.
const PLAINER: [fn(&mut Case); 17] = [
    |case| case.store.resize(STORE_WORDS, 0),
    |case| case.output.fill(0),
    |case| case.state.queue = Queue::EMPTY,
    |case| case.state.at = Position { x: 0, y: 0 },
    |case| case.state.control[2..6].fill(0),
    |case| case.state.control[0] &= !1,
    |case| case.state.control[0] &= !2,
    |case| case.state.control[0] &= !4,
    |case| case.state.control[0] &= !8,
    |case| *case = case.read_alone(),
    |case| case.normal.fill(0),
    |case| case.overlay.fill(0),
    |case| case.store.iter_mut().skip(32).for_each(|word| *word = 0),
    |case| narrower(case, case.width() / 2),
    |case| narrower(case, case.width() - 1),
    |case| case.table.truncate(case.table.len() / 2),
    |case| case.table.truncate(case.table.len().saturating_sub(1)),
];

/// Cuts pixels off on the right.
fn narrower(case: &mut Case, width: u32) {
    if width > 0 {
        let whole = case.width() as usize;
        case.state.control[7] = case.state.control[7] & !0x7FF | (width - 1);
        case.normal.truncate(case.normal.len() / whole * width as usize);
        case.overlay.truncate(width as usize);
        case.output.truncate(width as usize);
    }
}
