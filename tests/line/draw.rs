//! Random lines.

use crate::case::{fields, Case};
use crate::model::beam::Position;
use crate::model::chip::State;
use crate::model::colour::defined;
use crate::model::queue::{Queue, Waiting};
use crate::model::registers::{COLOUR_ENTRIES, COLOUR_KEPT, CONTROL_KEPT, STORE_WORDS};
use crate::model::store::CURSOR_GLYPH;
use crate::numbers::Numbers;

/// A line that is mostly drawn, with garbage in every bit that isn't kept. Its store is mostly that of the background.
pub fn case(numbers: &mut Numbers, background: &[u32]) -> Case {
    let (width, height) = (width(numbers), height(numbers));
    let y = match numbers.below(4) {
        0 => 0,
        1 => height - 1,
        _ => numbers.below(height),
    };
    let state = state(numbers, width, height, y);
    let depth = if state.control[0] & 16 != 0 { 32 } else { 16 };
    let [overlay_on, ids_on] = [0, 1].map(|bit| state.control[0] >> bit & 1 == 1);
    Case {
        state,
        y,
        store: store(numbers, background, depth),
        table: if ids_on || numbers.one_in(4) { table(numbers, y, width) } else { Vec::new() },
        normal: bytes(numbers, width * depth / 8),
        overlay: if overlay_on { overlay(numbers, width) } else { any_row(numbers) },
        output: {
            let past = numbers.pick(&[0, 0, 1, 3, 50]);
            words(numbers, width + past)
        },
    }
}

/// The same with a fault or two put in, which may be one that doesn't count.
pub fn damaged(numbers: &mut Numbers, background: &[u32]) -> Case {
    let mut case = case(numbers, background);
    for _ in 0..=numbers.below(2) {
        numbers.pick(&DAMAGE)(&mut case, numbers);
    }
    case
}

fn width(numbers: &mut Numbers) -> u32 {
    match numbers.below(64) {
        0 => 2048 - numbers.below(3),
        1 => 1 + numbers.below(2048),
        2..=9 => 1 + numbers.below(100),
        _ => 1 + numbers.below(20),
    }
}

fn height(numbers: &mut Numbers) -> u32 {
    match numbers.below(8) {
        0 => 2048,
        1 => 1 + numbers.below(2048),
        _ => 1 + numbers.below(70),
    }
}

fn state(numbers: &mut Numbers, width: u32, height: u32, y: u32) -> State {
    let mut control = CONTROL_KEPT.map(|kept| numbers.next() & kept);
    let (ox, total_width) = origin_and_total(numbers, width);
    let (oy, total_lines) = origin_and_total(numbers, height);
    control[1] = fields(total_width - 1, total_lines - 1);
    control[6] = fields(ox, oy);
    control[7] = fields(width - 1, height - 1);
    control[8] = fields(near(numbers, 0, width), near(numbers, y, 1));
    let at = Position { x: numbers.below(4096), y: numbers.below(4096) };
    State { control, at, queue: queue(numbers) }
}

/// An origin and a total that a size fits into, sometimes just so.
fn origin_and_total(numbers: &mut Numbers, size: u32) -> (u32, u32) {
    let origin = match numbers.below(4) {
        0 => 0,
        1 => 4096 - size,
        _ => numbers.below(4097 - size),
    };
    let room = 4097 - size - origin;
    let slack = numbers.below(room);
    (origin, origin + size + numbers.pick(&[0, 0, slack, room - 1]))
}

/// A place of the cursor from which it mostly reaches one of so many pixels from the first on.
fn near(numbers: &mut Numbers, first: u32, pixels: u32) -> u32 {
    match numbers.below(8) {
        0 => numbers.below(4096),
        1 => first,
        _ => (first + numbers.below(pixels + 33)).saturating_sub(1).min(4095),
    }
}

fn queue(numbers: &mut Numbers) -> Queue {
    let any = numbers.below(65);
    let waiting = numbers.pick(&[0, 0, 1, any, 64]);
    let mut queue = Queue { waiting, slots: Queue::EMPTY.slots };
    let (live, dead) = queue.slots.split_at_mut(waiting as usize);
    live.fill_with(|| Waiting { entry: numbers.below(COLOUR_ENTRIES), colour: numbers.next() & COLOUR_KEPT });
    if numbers.one_in(4) {
        dead.fill_with(|| Waiting { entry: numbers.next(), colour: numbers.next() });
    }
    queue
}

/// A store with anything in it, and about half of the glyph transparent.
pub fn background(numbers: &mut Numbers) -> Vec<u32> {
    let mut store = words(numbers, STORE_WORDS as u32);
    for word in &mut store[CURSOR_GLYPH..CURSOR_GLYPH + 64] {
        *word &= numbers.next();
    }
    store
}

/// The background with window entries that are mostly defined, and some other words changed.
fn store(numbers: &mut Numbers, background: &[u32], depth: u32) -> Vec<u32> {
    let mut store = background.to_vec();
    for word in &mut store[..32] {
        *word = numbers.next();
        while !defined(*word, depth) && !numbers.one_in(100) {
            *word = numbers.next();
        }
    }
    for _ in 0..16 {
        store[32 + numbers.below(STORE_WORDS as u32 - 32) as usize] = numbers.next();
    }
    store
}

fn words(numbers: &mut Numbers, count: u32) -> Vec<u32> {
    (0..count).map(|_| numbers.next()).collect()
}

fn bytes(numbers: &mut Numbers, count: u32) -> Vec<u8> {
    let mut bytes = words(numbers, count.div_ceil(4)).into_iter().flat_map(u32::to_ne_bytes).collect::<Vec<_>>();
    bytes.truncate(count as usize);
    bytes
}

/// About half of it transparent.
fn overlay(numbers: &mut Numbers, width: u32) -> Vec<u8> {
    let mut row = bytes(numbers, width);
    for byte in &mut row {
        *byte *= numbers.below(2) as u8;
    }
    row
}

/// A row that isn't looked at.
fn any_row(numbers: &mut Numbers) -> Vec<u8> {
    let any = numbers.below(40);
    let count = numbers.pick(&[0, 0, 0, any]);
    bytes(numbers, count)
}

/// Mostly a table that has the line; else any bytes.
fn table(numbers: &mut Numbers, y: u32, width: u32) -> Vec<u8> {
    if numbers.one_in(128) {
        return long_table(numbers, y, width);
    }
    let length = match numbers.below(64) {
        0 => numbers.below(65_537),
        1 => 65_536 - numbers.below(6),
        2..=9 => numbers.below(16),
        10..=25 => (512 * (1 + numbers.below(8)) + numbers.below(9)).saturating_sub(4),
        _ => numbers.below(1600),
    };
    let mut table = bytes(numbers, length);
    if numbers.one_in(16) {
        return table;
    }
    let passed_over = if numbers.one_in(8) { numbers.below(60) } else { numbers.below(4) };
    for number in 0..passed_over {
        let end = if y > 0 && !numbers.one_in(64) { numbers.below(y) } else { numbers.below(2048) };
        frame_entry(numbers, &mut table, number, end, length);
    }
    serve(numbers, &mut table, passed_over, y, width);
    table
}

/// A table in which about as many frame entries are passed over as are looked at.
fn long_table(numbers: &mut Numbers, y: u32, width: u32) -> Vec<u8> {
    let length = 8192 + numbers.below(3000);
    let mut table = bytes(numbers, length);
    let passed_over = 2040 + numbers.below(12);
    for number in 0..passed_over {
        frame_entry(numbers, &mut table, number, y.saturating_sub(1), length);
    }
    serve(numbers, &mut table, passed_over, y, width);
    table
}

/// Puts in a frame entry of this number that serves a line, and its line entries.
fn serve(numbers: &mut Numbers, table: &mut [u8], number: u32, y: u32, width: u32) {
    let any = y + numbers.below(2048 - y);
    let end = numbers.pick(&[y, 2047, any]);
    let start = frame_entry(numbers, table, number, end, table.len() as u32);
    line_entries(numbers, table, start, width);
}

/// Puts a frame entry in, with garbage in its other bits, and answers where its line table starts.
fn frame_entry(numbers: &mut Numbers, table: &mut [u8], number: u32, yend: u32, length: u32) -> u32 {
    let block = numbers.below(length / 512 + 1).min(127);
    let offset = match numbers.below(8) {
        0 => numbers.below(256),
        1 => 248 + numbers.below(8),
        _ => numbers.below(40),
    };
    let word = yend << 16 | block << 8 | offset | numbers.next() & 0xF800_8000;
    put(table, 4 * number, &word.to_be_bytes());
    512 * block + 2 * offset
}

/// Puts line entries in, mostly enough of them and mostly in rising order.
fn line_entries(numbers: &mut Numbers, table: &mut [u8], start: u32, width: u32) {
    let step = numbers.pick(&[1, 4, 16, width]);
    let (mut at, mut x) = (start, 0);
    while x < width {
        let xend = match numbers.below(16) {
            0 => numbers.below(2048),
            1 => x.saturating_sub(1),
            2 => width - 1,
            _ => (x + numbers.below(step)).min(2047),
        };
        put(table, at, &((xend << 5 | numbers.below(32)) as u16).to_be_bytes());
        at += 2;
        if xend >= x {
            x = xend + 1;
        }
        if numbers.one_in(200) {
            break;
        }
    }
}

/// Puts in what fits.
fn put(table: &mut [u8], at: u32, bytes: &[u8]) {
    for (old, new) in table.iter_mut().skip(at as usize).zip(bytes) {
        *old = *new;
    }
}

/// Ways to put a fault into a case.
const DAMAGE: [fn(&mut Case, &mut Numbers); 17] = [
    |case, numbers| case.state.control[numbers.below(9) as usize] |= 1 << numbers.below(32),
    |case, numbers| case.state.at.x = around(numbers, 4096),
    |case, numbers| case.state.at.y = around(numbers, 4096),
    |case, numbers| case.state.queue.waiting = around(numbers, 65),
    |case, numbers| case.state.queue.slots[numbers.below(64) as usize].entry = around(numbers, COLOUR_ENTRIES),
    |case, numbers| case.state.queue.slots[numbers.below(64) as usize].colour = around(numbers, COLOUR_KEPT + 1),
    |case, numbers| {
        case.state.control[1] = case.state.control[1].wrapping_sub(1 << (16 * numbers.below(2))) & 0x0FFF_0FFF
    },
    |case, numbers| case.state.control[6] = numbers.next() & 0x0FFF_0FFF,
    |case, numbers| case.state.control[7] = numbers.next() & 0x07FF_07FF,
    |case, numbers| case.y = around(numbers, case.state.control[7] >> 16 & 0x7FF),
    |case, numbers| another_length(&mut case.store, numbers, 5200),
    |case, numbers| case.table.resize(65_537 + numbers.below(2) as usize * numbers.below(9000) as usize, 0),
    |case, numbers| another_length(&mut case.normal, numbers, 8300),
    |case, numbers| another_length(&mut case.overlay, numbers, 2100),
    |case, numbers| another_length(&mut case.output, numbers, 2100),
    |case, numbers| case.table.truncate(numbers.below(case.table.len() as u32 + 1) as usize),
    |case, numbers| {
        if let Some(word) = case.store.get_mut(numbers.below(32) as usize) {
            *word = numbers.next();
        }
    },
];

/// Near a bound or far beyond it.
fn around(numbers: &mut Numbers, bound: u32) -> u32 {
    let any = numbers.next();
    numbers.pick(&[bound.saturating_sub(1), bound, bound + 1, u32::MAX, any])
}

/// Nothing, a few more or less, or any length up to a bound.
fn another_length<T: Clone + Default>(part: &mut Vec<T>, numbers: &mut Numbers, bound: u32) {
    let near = (part.len() + 3).saturating_sub(numbers.below(6) as usize);
    let any = numbers.below(bound) as usize;
    part.resize(numbers.pick(&[0, near, near, near, any]), T::default());
}
