//! Lines of 2,048 and of 640 pixels.

use std::hint::black_box;

use crate::library;
use crate::measure::{timed, Row, Works, NANOSECONDS};
use crate::model::chip::State;
use crate::model::registers::STORE_WORDS;
use crate::numbers::Numbers;
use crate::plain;

/// The pixels of a line, and how they are called.
const WIDTHS: [(usize, &str); 2] = [(2048, "line of 2,048"), (640, "line of 640")];

/// The line that is drawn of as many as there can be.
const Y: u32 = 1000;

/// Bits of control word 0.
const OVERLAY_ON: u32 = 1;
const IDS_ON: u32 = 2;
const CURSOR_ON: u32 = 4;
const DEPTH_32: u32 = 16;

/// Bits of a window entry.
const BYPASS: u32 = 1 << 9;
const OVERLAY_ALLOWED: u32 = 1 << 10;

/// The formats by number.
const FORMATS: [&str; 6] = ["index of 8 bits", "index of 12 bits", "3-3-2", "4-4-4", "5-5-5", "8-8-8"];

/// The first format that is listed at depth 32 only.
const DEEP_FORMAT: u32 = 5;

/// Through gamma or past it, by the bit of a window entry.
const GAMMAS: [(u32, &str); 2] = [(0, "gamma"), (BYPASS, "gamma bypassed")];

/// Each kind of line, at each width.
pub fn rows() -> impl Iterator<Item = Row> {
    WIDTHS.into_iter().flat_map(|(width, of)| {
        let lines = [formats(width), layers(width), runs(width)].into_iter().flatten();
        lines.map(move |(what, line)| row(format!("{of}, {what}"), line))
    })
}

/// What a line is, and the line.
type Named = (String, Line);

/// Each format at each depth that lists it, through gamma and past it.
fn formats(width: usize) -> Vec<Named> {
    let depths = [(DEEP_FORMAT, 0, "depth 16"), (DEEP_FORMAT + 1, DEPTH_32, "depth 32")];
    let lines = depths.into_iter().flat_map(|(formats, switches, depth)| {
        GAMMAS.into_iter().flat_map(move |(bits, gamma)| {
            (0..formats).map(move |of| {
                let what = format!("{}, {depth}, {gamma}", FORMATS[of as usize]);
                (what, Line::new(width, switches, |_| format(of) | bits))
            })
        })
    });
    lines.collect()
}

/// Lines with a half transparent overlay and the cursor, through gamma and past it.
fn layers(width: usize) -> Vec<Named> {
    let lines = [(0, 0), (DEEP_FORMAT, DEPTH_32)].into_iter().flat_map(|(of, depth)| {
        GAMMAS.into_iter().map(move |(bits, gamma)| {
            let what = format!("{}, overlay and cursor, {gamma}", FORMATS[of as usize]);
            let switches = depth | OVERLAY_ON | CURSOR_ON;
            (what, Line::new(width, switches, |_| format(of) | bits | OVERLAY_ALLOWED))
        })
    });
    lines.collect()
}

/// Lines of windows of all formats in turn.
fn runs(width: usize) -> Vec<Named> {
    vec![
        ("all formats in 32 runs by ID".to_string(), mixed(width, 32, 0)),
        ("all formats in 256 runs by ID, overlay, cursor".to_string(), mixed(width, 256, OVERLAY_ON | CURSOR_ON)),
    ]
}

/// A line that library and plain Rust draw the same.
fn row(what: String, line: Line) -> Row {
    let drawn = |line: &Line, draw: fn(&mut Line) -> u32| {
        let mut line = line.clone();
        (draw(&mut line), line.output)
    };
    Row::new(
        what,
        NANOSECONDS,
        move || line,
        move |line| {
            let plain = drawn(line, of_plain);
            plain.0 == 0 && drawn(line, of_library) == plain
        },
        |line| Works { proved: timed(&line, of_library), plain: timed(&line, of_plain) },
    )
}

/// So many windows, half of them past gamma and half of them with overlay; half of the overlay is transparent.
fn mixed(width: usize, runs: usize, switches: u32) -> Line {
    let entry = |id| {
        let bypass = if id / 6 % 2 == 1 { BYPASS } else { 0 };
        let allowed = if id / 3 % 2 == 1 { OVERLAY_ALLOWED } else { 0 };
        format(id % 6) | bank(id % 18) | bypass | allowed
    };
    let mut line = Line::new(width, DEPTH_32 | IDS_ON | switches, entry);
    line.table = vec![0; 512];
    line.table[..4].copy_from_slice(&0x07FF_0100_u32.to_be_bytes());
    for run in 0..runs {
        let (xend, id) = ((run + 1) * width / runs - 1, run % 32);
        line.table.extend(((xend << 5 | id) as u16).to_be_bytes());
    }
    line
}

/// A window entry's format.
fn format(number: u32) -> u32 {
    number << 1
}

/// A window entry's bank.
fn bank(number: u32) -> u32 {
    number << 4
}

/// A line and all that it is lent.
#[derive(Clone)]
struct Line {
    state: State,
    store: Vec<u32>,
    table: Vec<u8>,
    normal: Vec<u8>,
    overlay: Vec<u8>,
    output: Vec<u32>,
}

impl Line {
    /// A line of so many pixels with some switches on and an entry for each ID.
    fn new(width: usize, switches: u32, entry: impl Fn(u32) -> u32) -> Self {
        let mut state = State::FRESH;
        state.control[0] = switches;
        state.control[1] = 0x0FFF_0FFF;
        state.control[7] = 0x07FF_0000 | (width as u32 - 1);
        state.control[8] = (Y + 16) << 16 | 500;
        let mut numbers = Numbers::new(20_010_417);
        let mut store: Vec<u32> = (0..STORE_WORDS).map(|_| numbers.next()).collect();
        for (id, word) in (0..).zip(&mut store[..32]) {
            *word = entry(id);
        }
        let row = if switches & DEPTH_32 != 0 { 4 * width } else { 2 * width };
        Self {
            state,
            store,
            table: Vec::new(),
            normal: (0..row).map(|_| numbers.next() as u8).collect(),
            overlay: (0..width).map(|_| numbers.next() as u8 * numbers.below(2) as u8).collect(),
            output: vec![0; width],
        }
    }
}

/// Draws by the library, and answers the number.
fn of_library(line: &mut Line) -> u32 {
    let Line { state, store, table, normal, overlay, output } = line;
    let answer = library::line(*state, black_box(Y), library::Lent { store, table, normal, overlay, output });
    line.state = black_box(&answer).state;
    answer.number
}

/// Draws by plain Rust, alike.
fn of_plain(line: &mut Line) -> u32 {
    let Line { state, store, table, normal, overlay, output } = line;
    let answer = plain::line(*state, black_box(Y), store, table, normal, overlay, output);
    line.state = black_box(&answer).state;
    answer.number
}
