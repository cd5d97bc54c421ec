//! Random ID tables.

use crate::numbers::Numbers;

/// Some frame entries with a line table each, mostly enough for every line of so many pixels.
pub fn table(numbers: &mut Numbers, width: u32) -> Vec<u8> {
    let frames = 1 + numbers.below(3);
    let first = if numbers.one_in(4) { 512 } else { 4 * frames };
    let (mut frame_entries, mut line_tables) = (Vec::new(), Vec::new());
    for number in 0..frames {
        let start = first + line_tables.len() as u32;
        let yend = if number + 1 < frames || numbers.one_in(16) { numbers.below(50) } else { 2047 };
        let (block, offset) = (start / 512, start % 512 / 2);
        let ignored = numbers.next() & 0xF800_8000;
        let entry = yend << 16 | block << 8 | offset | ignored;
        frame_entries.extend(entry.to_be_bytes());
        line_tables.extend(line_table(numbers, width));
    }
    frame_entries.resize(first as usize, 0);
    let mut table = [frame_entries, line_tables].concat();
    if numbers.one_in(12) {
        table.truncate(numbers.below(table.len() as u32) as usize);
    }
    table
}

/// Line entries with ends that mostly rise, the last mostly past the line.
fn line_table(numbers: &mut Numbers, width: u32) -> Vec<u8> {
    let mut ends: Vec<u32> = (0..numbers.below(5)).map(|_| numbers.below(width.min(40))).collect();
    if !numbers.one_in(8) {
        ends.sort_unstable();
    }
    if !numbers.one_in(16) {
        ends.push(2047);
    }
    let mut entry = |end| {
        let any = numbers.below(32);
        let id = numbers.pick(&[any % 6, any % 6, any % 6, any]);
        ((end << 5 | id) as u16).to_be_bytes()
    };
    ends.into_iter().flat_map(&mut entry).collect()
}
