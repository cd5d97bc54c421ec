//! The text of a record, put to the front of a room that is long enough.

use crate::model::beam::Position;
use crate::model::chip::Refusal;

/// The bytes of a pixel's text.
const PIXEL: usize = 7;

/// The two hex digits of each byte, as they stand in memory.
static HEX: [u16; 256] = {
    let digits = b"0123456789abcdef";
    let mut hex = [0; 256];
    let mut byte = 0;
    while byte < 256 {
        hex[byte] = u16::from_le_bytes([digits[byte >> 4], digits[byte & 15]]);
        byte += 1;
    }
    hex
};

/// Of what was taken.
pub fn ok(room: &mut [u8]) -> usize {
    room[..3].copy_from_slice(b"ok\n");
    3
}

/// Of dots.
pub fn at(room: &mut [u8], Position { x, y }: Position) -> usize {
    words(room, b"at ", &[x, y])
}

/// Of a refusal.
pub fn refused(room: &mut [u8], (number, place): Refusal) -> usize {
    words(room, b"refused ", &[number, place])
}

/// Of a line that was drawn.
pub fn line(room: &mut [u8], y: u32, pixels: &[u32]) -> usize {
    let first = words(room, b"line ", &[y]);
    let past = first + PIXEL * pixels.len();
    let (text_fours, texts) = room[first..past].as_chunks_mut().0.as_chunks_mut::<4>();
    let (fours, pixels) = pixels.as_chunks::<4>();
    for (texts, four) in text_fours.iter_mut().zip(fours) {
        hex_lines(texts, four);
    }
    hex_lines(texts, pixels);
    past
}

/// Each colour in six hex digits, on a line of its own.
#[inline(always)]
fn hex_lines(texts: &mut [[u8; PIXEL]], colours: &[u32]) {
    for (text, colour) in texts.iter_mut().zip(colours) {
        let [blue, green, red, _] = colour.to_le_bytes().map(|byte| u64::from(HEX[usize::from(byte)]));
        let digits = red | green << 16 | blue << 32 | u64::from(b'\n') << 48;
        text.copy_from_slice(&digits.to_le_bytes()[..PIXEL]);
    }
}

/// A word and some numbers, on a line of their own.
fn words(room: &mut [u8], word: &[u8], numbers: &[u32]) -> usize {
    room[..word.len()].copy_from_slice(word);
    let mut past = word.len();
    for &number in numbers {
        past += decimal(&mut room[past..], number);
        room[past] = b' ';
        past += 1;
    }
    room[past - 1] = b'\n';
    past
}

/// A number in decimal.
fn decimal(room: &mut [u8], number: u32) -> usize {
    let length = number.checked_ilog10().unwrap_or(0) as usize + 1;
    let mut rest = number;
    for digit in room[..length].iter_mut().rev() {
        *digit = b'0' + (rest % 10) as u8;
        rest /= 10;
    }
    length
}
