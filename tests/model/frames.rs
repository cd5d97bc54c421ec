//! Long runs of dots.

use super::beam::{Position, Signals, Timings};
use super::chip::{Refusal, State};

/// The longest run that is made dot by dot.
const SHORT: u32 = 4096;

/// The same as `State::dots`, but in long runs the dots that only move are made many at a time.
pub fn dots(state: &mut State, store: &mut [u32], count: u32) -> Result<Option<Signals>, Refusal> {
    let mut last = state.dots(store, count.min(SHORT))?;
    let mut left = count.saturating_sub(SHORT);
    let timings = state.timings();
    let blanks = if left > 0 { Blanks::new(&timings) } else { Blanks::NEVER };
    while left > 0 {
        let moves = blanks.only_move(&timings, state).min(left);
        if moves > 0 {
            let at = along(&timings, state.at, moves - 1);
            last = Some(timings.signals(at));
            state.at = timings.next(at);
            left -= moves;
        } else {
            last = Some(state.dot(store)?);
            left -= 1;
        }
    }
    Ok(last)
}

/// Where in a frame there are blanked dots.
struct Blanks {
    in_every_line: bool,
    in_any_line: bool,
}

impl Blanks {
    const NEVER: Self = Self { in_every_line: false, in_any_line: false };

    fn new(timings: &Timings) -> Self {
        let in_every_line = (0..timings.total_width).any(|x| timings.column_blanked(x));
        let in_any_line = in_every_line || (0..timings.total_lines).any(|y| timings.line_blanked(y));
        Self { in_every_line, in_any_line }
    }

    /// How many dots from here on do nothing but move, as far as that is plain; none outside the frame.
    fn only_move(&self, timings: &Timings, state: &State) -> u32 {
        let Position { x, y } = state.at;
        if x >= timings.total_width || y >= timings.total_lines {
            0
        } else if state.queue.waiting == 0 || !self.in_any_line {
            u32::MAX
        } else if self.in_every_line || timings.line_blanked(y) {
            0
        } else {
            timings.total_width - x
        }
    }
}

/// The position so many dots on, from one inside the frame.
fn along(timings: &Timings, at: Position, moves: u32) -> Position {
    let Timings { total_width, total_lines, .. } = *timings;
    let frame = total_width * total_lines;
    let index = (at.y * total_width + at.x + moves % frame) % frame;
    Position { x: index % total_width, y: index / total_width }
}
