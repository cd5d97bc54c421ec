//! Runs of every length at every alignment: the tails of loops that take some pixels at a time, and the lengths from which
//! on other loops are taken.

use super::colours::noisy;
use super::{bank, entry, format, BUFFER_1, BYPASS, CURSOR_ON, IDS_ON, OVERLAY_ALLOWED, OVERLAY_ON};
use crate::case::{fields, Case};
use crate::pair::{Compared, Pair};

/// Each case, and what it shows.
pub const VECTORS: [super::Vector; 2] = [
    ("lines of each width, a run behind each number of pixels up to 15", every_width),
    ("runs of each length between others, at each alignment", every_length_between),
];

/// The widest line.
const WIDEST: u32 = 2048;

/// So many pixels stand before a run at most: as many as a loop takes at a time.
const ALIGNMENTS: u32 = 16;

/// Lines of each width in two runs.
fn every_width(pair: &mut Pair) -> Compared<()> {
    let lines = lines();
    for width in 1..=WIDEST {
        for before in 0..ALIGNMENTS.min(width) {
            let line = &lines[((width + 7 * before) as usize) % lines.len()];
            pair.lend(&in_runs(line, width, &[before, width]))?;
        }
    }
    Ok(())
}

/// Lines of the greatest width in three runs, of which the second has each length.
fn every_length_between(pair: &mut Pair) -> Compared<()> {
    let lines = lines();
    for length in 1..WIDEST {
        for before in [length % ALIGNMENTS, (WIDEST - length) / 2] {
            let line = &lines[((length + 5 * before) as usize) % lines.len()];
            pair.lend(&in_runs(line, WIDEST, &[before, WIDEST.min(before + length), WIDEST]))?;
        }
    }
    Ok(())
}

/// The same line so wide, in runs that end before these pixels, of windows 1, 0 and 1 again.
fn in_runs(line: &Case, width: u32, ends: &[u32]) -> Case {
    let mut case = line.clone();
    case.state.control[7] = fields(width - 1, 2047);
    case.state.control[8] = fields(width / 2 + 9, 20);
    case.table = vec![0; 512];
    case.table[..4].copy_from_slice(&0x07FF_0100_u32.to_be_bytes());
    for (run, &end) in (0..).zip(ends).filter(|&(_, &end)| end > 0) {
        case.table.extend(entry(end as u16 - 1, 1 - run % 2).to_be_bytes());
    }
    case
}

/// Lines of noise, one for each format, depth and buffer that is defined, through gamma and past it, with and without
/// overlay, each under the cursor. Window 1 has another format than window 0.
fn lines() -> Vec<Case> {
    let defined = [(16, 0, true), (16, 1, false), (16, 2, true), (16, 3, false), (16, 4, false)].into_iter();
    let defined = defined.chain((0..5).map(|number| (32, number, true))).chain([(32, 5, false)]);
    let entries = defined.flat_map(|(depth, number, halves)| {
        let buffers = if halves { vec![0, BUFFER_1] } else { vec![0] };
        buffers.into_iter().map(move |buffer| (depth, format(number) | buffer | bank(number)))
    });
    let layered = entries.flat_map(|(depth, entry)| {
        [0, BYPASS, OVERLAY_ALLOWED, BYPASS | OVERLAY_ALLOWED].map(|bits| (depth, entry | bits))
    });
    layered.map(|(depth, entry)| line(depth, entry)).collect()
}

/// A line of noise under the cursor, with overlay that is half transparent.
fn line(depth: u32, entry: u32) -> Case {
    let mut case = noisy(depth, WIDEST, entry ^ depth << 8);
    case.switch_on(OVERLAY_ON | CURSOR_ON | IDS_ON);
    case.overlay = case.normal[..WIDEST as usize].iter().map(|byte| byte.wrapping_mul(byte >> 7)).collect();
    case.window(0, entry);
    let other = if entry & format(7) == format(2) { format(0) } else { format(2) };
    case.window(1, other | (entry ^ BYPASS) & (BYPASS | OVERLAY_ALLOWED));
    case
}
