//! How much was compared.

use std::fmt;

#[derive(Default)]
pub struct Tally {
    files: u64,
    ok: u64,
    at: u64,
    lines: u64,
    pixels: u64,
    not_black: u64,
    refused: [u64; 15],
}

impl Tally {
    /// Counts what a listing says.
    pub fn count(&mut self, listing: &[u8]) {
        self.files += 1;
        for line in listing.split(|&byte| byte == b'\n').filter(|line| !line.is_empty()) {
            match line {
                b"ok" => self.ok += 1,
                [b'a', b't', b' ', ..] => self.at += 1,
                [b'l', b'i', b'n', b'e', ..] => self.lines += 1,
                [b'r', b'e', b'f', ..] => self.refused[number(line)] += 1,
                colour => {
                    self.pixels += 1;
                    self.not_black += u64::from(colour != b"000000");
                }
            }
        }
    }
}

/// The number of a refusal.
fn number(line: &[u8]) -> usize {
    let text = String::from_utf8_lossy(line);
    text.split(' ').nth(1).and_then(|number| number.parse().ok()).expect("a refusal has a number")
}

impl fmt::Display for Tally {
    fn fmt(&self, f: &mut fmt::Formatter) -> fmt::Result {
        let Self { files, ok, at, lines, pixels, not_black, refused } = self;
        write!(f, "{files} files: {ok} ok, {at} runs of dots, {lines} lines drawn ")?;
        write!(f, "with {pixels} pixels, {not_black} of them not black")?;
        for (number, times) in refused.iter().enumerate().filter(|(_, &times)| times > 0) {
            write!(f, ", {times} refused by {number}")?;
        }
        Ok(())
    }
}
