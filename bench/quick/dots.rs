//! Runs of dots, line by line.

use std::cmp::Ordering;

use crate::model::beam::{Position, Signals, Timings};
use crate::model::chip::State;
use crate::model::queue::{Queue, Waiting};
use crate::model::registers::COLOUR_MAP;

/// Makes some dots on a state and a store that aren't refused, and answers what the last of them reports.
pub fn dots(state: &mut State, store: &mut [u32], count: u32) -> Option<Signals> {
    let timings = state.timings();
    let before_last = count.checked_sub(1)?;
    drain(state, &timings, store, count);
    let last = along(&timings, state.at, before_last);
    state.at = timings.next(last);
    Some(timings.signals(last))
}

/// Applies as many waiting writes as blanked dots are met.
fn drain(state: &mut State, timings: &Timings, store: &mut [u32], count: u32) {
    let waiting = state.queue.waiting;
    if waiting == 0 {
        return;
    }
    let (columns, lines) = (Blank::new(state.control[4]), Blank::new(state.control[5]));
    let in_frame = columns.among(0, timings.total_width) > 0 || lines.among(0, timings.total_lines) > 0;
    let (mut at, mut left, mut met) = (state.at, count, 0);
    while left > 0 && met < waiting {
        let dots = line_left(timings, at).min(left);
        met += if timings.line_blanked(at.y) { dots } else { columns.among(at.x, at.x + dots) };
        if !in_frame {
            // Only the first line, in which the beam may be outside the frame, has blanked dots.
            break;
        }
        left -= dots;
        at = Position { x: 0, y: next_line(timings, at.y) };
    }
    apply(&mut state.queue, store, met.min(waiting));
}

/// Applies the oldest writes, and moves the others up.
fn apply(queue: &mut Queue, store: &mut [u32], writes: u32) {
    let count = writes as usize;
    for &Waiting { entry, colour } in &queue.slots[..count] {
        store[COLOUR_MAP + entry as usize] = colour;
    }
    queue.slots.copy_within(count.., 0);
    let past = queue.slots.len() - count;
    queue.slots[past..].fill(Waiting::NONE);
    queue.waiting -= writes;
}

/// How many dots are left of a line; one where the beam is past its end.
fn line_left(timings: &Timings, at: Position) -> u32 {
    timings.total_width.saturating_sub(at.x).max(1)
}

/// The line after one.
fn next_line(timings: &Timings, y: u32) -> u32 {
    if y + 1 < timings.total_lines {
        y + 1
    } else {
        0
    }
}

/// The position so many dots on.
fn along(timings: &Timings, at: Position, dots: u32) -> Position {
    let Timings { total_width, total_lines, .. } = *timings;
    let first_line = line_left(timings, at);
    if dots < first_line {
        return Position { x: at.x + dots, ..at };
    }
    let index = next_line(timings, at.y) * total_width + (dots - first_line) % (total_width * total_lines);
    Position { x: index % total_width, y: index / total_width % total_lines }
}

/// A blank window.
struct Blank {
    on: u32,
    off: u32,
}

impl Blank {
    /// By its control word.
    fn new(word: u32) -> Self {
        Self { on: word & 0xFFF, off: word >> 16 & 0xFFF }
    }

    /// How many of the columns or lines from one to before another are blanked.
    fn among(&self, first: u32, past: u32) -> u32 {
        let Self { on, off } = *self;
        let common = |low: u32, high: u32| past.min(high).saturating_sub(first.max(low));
        match on.cmp(&off) {
            Ordering::Less => common(on, off),
            Ordering::Equal => 0,
            Ordering::Greater => common(on, u32::MAX) + common(0, off),
        }
    }
}
