//! How many lines were compared.

use std::fmt;

#[derive(Default)]
pub struct Tally {
    pixels: u64,
    refused: [u64; 12],
    unread: [u64; 12],
}

impl Tally {
    pub fn count(&mut self, number: u32, width: u32) {
        self.refused[number as usize] += 1;
        self.pixels += if number == 0 { u64::from(width) } else { 0 };
    }

    /// A line, drawn or refused by a number, compared with itself after all that it doesn't read was changed.
    pub fn count_unread(&mut self, number: u32) {
        self.unread[number as usize] += 1;
    }
}

impl fmt::Display for Tally {
    fn fmt(&self, f: &mut fmt::Formatter) -> fmt::Result {
        let Self { pixels, refused, unread } = self;
        write!(f, "{} lines with {pixels} pixels:{}; ", refused.iter().sum::<u64>(), by_number(refused))?;
        let pairs = unread.iter().sum::<u64>();
        write!(f, "{pairs} of them again with all changed that they don't read:{}", by_number(unread))
    }
}

/// How many lines were drawn, and how many refused by each number.
fn by_number(lines: &[u64; 12]) -> String {
    let refused = lines.iter().enumerate().skip(1).filter(|(_, &times)| times > 0);
    let refused = refused.map(|(number, times)| format!(", {times} refused by {number}")).collect::<String>();
    format!(" {} drawn{refused}", lines[0])
}
