//! The session files that are measured.

use crate::numbers::Numbers;
use crate::recorded;

/// How many lines are drawn in the sessions that draw.
const LINES: u16 = 2000;

/// The seed of what is in the files.
const SEED: u64 = 20_010_417;

/// A row and a line of it, without an end, at a depth with an entry for window 0.
pub fn one_line(entry: u32, depth: u32) -> Vec<u8> {
    let row = row(&mut Numbers::new(SEED), 2048 * depth / 8);
    [screen(entry, depth), recorded::normal(&row), recorded::line(1000)].concat()
}

/// A row of 8-8-8 and a line, again and again; window 0 goes through a gamma of random words.
pub fn lines() -> Vec<u8> {
    let mut numbers = Numbers::new(SEED);
    let mut file = screen(0x0A, 32);
    for word in 0..256 {
        file.extend(recorded::write(0x03_0000 + 4 * word, numbers.next() & 0xFF_FFFF));
    }
    for y in 0..LINES {
        file.extend(recorded::normal(&row(&mut numbers, 8192)));
        file.extend(recorded::line(y));
    }
    file.extend(recorded::END);
    file
}

/// One row of 8-8-8, of which line after line is drawn; window 0 bypasses gamma.
pub fn same_row() -> Vec<u8> {
    let mut file = screen(0x20A, 32);
    file.extend(recorded::normal(&row(&mut Numbers::new(SEED), 8192)));
    for y in 0..LINES {
        file.extend(recorded::line(y));
    }
    file.extend(recorded::END);
    file
}

/// In turn three gamma writes, two colour writes, three runs of up to 15 dots and a row of each kind of up to 7 bytes.
/// A line has 16 dots, half of them blanked.
pub fn records() -> Vec<u8> {
    let mut numbers = Numbers::new(SEED);
    let mut file = [recorded::write(0x04, 15), recorded::write(0x10, 8)].concat();
    for number in 2..999_999 {
        let any = numbers.next();
        let record = match number % 10 {
            0..=2 => recorded::write(0x03_0000 + 4 * (any >> 24), any & 0xFF_FFFF),
            3..=4 => recorded::write(0x02_0000 + 4 * (any >> 24), any & 0xFF_FFFF),
            5..=7 => recorded::dots(any % 16),
            8 => recorded::normal(&row(&mut numbers, any % 8)),
            _ => recorded::overlay(&row(&mut numbers, any % 8)),
        };
        file.extend(record);
    }
    file.extend(recorded::END);
    file
}

/// A row of each kind of the greatest length in turn, as many as fill so many bytes.
pub fn rows_alone(bytes: usize) -> Vec<u8> {
    let mut numbers = Numbers::new(SEED);
    let pair = [recorded::normal(&row(&mut numbers, 8192)), recorded::overlay(&row(&mut numbers, 2048))].concat();
    let mut file = pair.repeat(bytes / pair.len());
    file.extend(recorded::END);
    file
}

/// A screen of 2,048 by 2,048 at a depth, with an entry for window 0.
fn screen(entry: u32, depth: u32) -> Vec<u8> {
    let switches = if depth == 32 { 0x10 } else { 0 };
    let writes = [(0x00, switches), (0x04, 0x07FF_07FF), (0x1C, 0x07FF_07FF), (0x01_0000, entry)];
    writes.into_iter().flat_map(|(address, value)| recorded::write(address, value)).collect()
}

/// A row of so many bytes.
fn row(numbers: &mut Numbers, bytes: u32) -> Vec<u8> {
    (0..bytes).map(|_| numbers.next() as u8).collect()
}
