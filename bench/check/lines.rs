//! Lines, drawn and refused.

use crate::case::{fields, Case};
use crate::line_draw;
use crate::model::chip::State;
use crate::model::colour::defined;
use crate::model::line::Lent;
use crate::numbers::Numbers;
use crate::quick;

/// How many random lines, every second one damaged.
const LINES: u32 = 20_000;

/// So many lines have most of the store in common.
const ON_ONE_BACKGROUND: u32 = 16;

/// Widths at which loops take other ways.
const WIDTHS: [u32; 14] = [1, 2, 3, 4, 5, 7, 16, 511, 512, 640, 1023, 1024, 2047, 2048];

/// What a line may come to: 0 where it is drawn, or the number of its refusal.
const NUMBERS: [u32; 8] = [0, 5, 6, 7, 8, 9, 10, 11];

/// Random lines, one past the frame entries that are looked at, and one of each window entry at each depth.
pub fn compare(numbers: &mut Numbers) {
    let (mut background, mut met) = (Vec::new(), [false; 12]);
    for number in 0..LINES {
        if number % ON_ONE_BACKGROUND == 0 {
            background = line_draw::background(numbers);
        }
        let draw = if number % 2 == 0 { line_draw::case } else { line_draw::damaged };
        met[same(&draw(numbers, &background)) as usize] = true;
    }
    for number in NUMBERS {
        assert!(met[number as usize], "no line came to {number}");
    }
    assert!(same(&past_frame_entries(numbers, &background)) == 7, "too many frame entries were looked at");
    for depth in [16, 32] {
        for entry in (0..0x800).filter(|&entry| defined(entry, depth)) {
            background[0] = entry;
            assert!(same(&of_one_window(numbers, depth, &background)) == 0, "entry {entry:#x} was refused");
        }
    }
}

/// A line of one window, of any of the widths, with overlay and cursor mostly on.
fn of_one_window(numbers: &mut Numbers, depth: u32, store: &[u32]) -> Case {
    let width = numbers.pick(&WIDTHS);
    let (overlay, cursor, y) = (numbers.pick(&[0, 1, 1]), numbers.pick(&[0, 4, 4, 12]), numbers.below(2048));
    let mut state = State::FRESH;
    state.control[0] = overlay | cursor | if depth == 32 { 16 } else { 0 };
    state.control[1] = fields(2047, 2047);
    state.control[7] = fields(width - 1, 2047);
    state.control[8] = fields(numbers.below(width + 40), y + numbers.below(33));
    Case {
        state,
        y,
        store: store.to_vec(),
        table: Vec::new(),
        normal: (0..width * depth / 8).map(|_| numbers.next() as u8).collect(),
        overlay: (0..width).map(|_| (numbers.next() * numbers.below(2)) as u8).collect(),
        output: vec![0; 2048],
    }
}

/// A line that only the 2,049th frame entry serves.
fn past_frame_entries(numbers: &mut Numbers, store: &[u32]) -> Case {
    let mut case = of_one_window(numbers, 16, store);
    case.state.control[0] = 2;
    case.y = 1;
    case.table = vec![0; 4 * 2048];
    case.table.extend(0x07FF_1000_u32.to_be_bytes());
    case
}

/// Draws a line by both, compares the answer and the whole output, and answers the number.
fn same(case: &Case) -> u32 {
    let Case { state, y, store, table, normal, overlay, output } = case;
    let mut quick = output.clone();
    let answer = quick::line(state, *y, Lent { store, table, normal, overlay }, &mut quick);
    let (of_model, model) = case.of_model();
    let pixel = quick.iter().zip(&model).position(|(quick, model)| quick != model);
    let what = || format!("line {y} of {} pixels, window 0 {:x?}, {state}", case.width(), store.first());
    assert!(answer == of_model, "{}: {answer:?}, and {of_model:?} by the model", what());
    assert!(pixel.is_none(), "{}: differs from the model at pixel {}", what(), pixel.unwrap_or_default());
    answer.map_or_else(|(number, _)| number, |()| 0)
}
