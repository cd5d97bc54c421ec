//! Window entries.

/// Each listed format, depth and buffer.
const LISTED: [(u32, u32, u32); 18] = [
    (0, 16, 0),
    (0, 16, 1),
    (0, 32, 0),
    (0, 32, 1),
    (1, 16, 0),
    (1, 32, 0),
    (1, 32, 1),
    (2, 16, 0),
    (2, 16, 1),
    (2, 32, 0),
    (2, 32, 1),
    (3, 16, 0),
    (3, 32, 0),
    (3, 32, 1),
    (4, 16, 0),
    (4, 32, 0),
    (4, 32, 1),
    (5, 32, 0),
];

/// Whether an entry, of which the low 13 bits count, is defined at a depth.
pub fn defined(entry: u32, depth: u32) -> bool {
    let (buffer, format, bank, spare) = (entry & 1, entry >> 1 & 7, entry >> 4 & 31, entry >> 11 & 3);
    spare == 0 && LISTED.contains(&(format, depth, buffer)) && (format != 0 || bank < 18)
}
