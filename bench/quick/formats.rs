//! The colours of a run, by its format.

use super::entry::Entry;
use super::gamma::Gamma;
use super::maps::{Maps, Palette, COLOUR};
use super::pixels::{each, fours_of_16, fours_of_32};

/// From so many pixels on it is quicker to correct a palette than to correct each pixel.
const PALETTE_PAYS: usize = 512;

/// The normal pixels of a run, and how they are read.
#[derive(Clone, Copy)]
pub struct Normal<'a> {
    pub bytes: &'a [u8],
    pub depth: u32,
    pub entry: Entry,
}

/// Draws a run without overlay and cursor, through gamma where that is given.
pub fn draw(normal: Normal, maps: &Maps, gamma: Option<&Gamma>, output: &mut [u32]) {
    match (normal.entry.format(), gamma) {
        (0, _) => by_palette(normal, maps.bank(normal.entry.bank()), gamma, output),
        (1, None) => looked_up(normal, output, |sample| maps.first_4096()[usize::from(sample & 0xFFF)] & COLOUR),
        (1, Some(gamma)) => {
            let (map, channels) = (maps.first_4096(), gamma.of_8());
            looked_up(normal, output, |sample| channels.corrected(map[usize::from(sample & 0xFFF)]));
        }
        (2, _) => by_palette(normal, &RGB332, gamma, output),
        (3, None) => worked_out(normal, output, rgb444),
        (3, Some(gamma)) => {
            let channels = gamma.of_4();
            looked_up(normal, output, |sample| {
                let sample = usize::from(sample);
                channels.colour(sample, sample >> 4, sample >> 8)
            });
        }
        (4, None) => worked_out(normal, output, rgb555),
        (4, Some(gamma)) => {
            let channels = gamma.of_5();
            looked_up(normal, output, |sample| {
                let sample = usize::from(sample);
                channels.colour(sample, sample >> 5, sample >> 10)
            });
        }
        (_, None) => each(normal.bytes, output, rgb888),
        (_, Some(gamma)) => {
            let channels = gamma.of_8();
            fours_of_32(normal.bytes, output, |pixel| channels.corrected(rgb888(pixel)));
        }
    }
}

/// Draws a format of 8 bits, by its 256 colours.
fn by_palette(normal: Normal, palette: &Palette, gamma: Option<&Gamma>, output: &mut [u32]) {
    match gamma {
        None => picked(normal, output, |sample| palette[usize::from(sample)] & COLOUR),
        Some(gamma) if output.len() >= PALETTE_PAYS => {
            let palette = gamma.palette(palette);
            picked(normal, output, |sample| palette[usize::from(sample)]);
        }
        Some(gamma) => {
            let channels = gamma.of_8();
            picked(normal, output, |sample| channels.corrected(palette[usize::from(sample)]));
        }
    }
}

/// Each sample of 8 bits, in a loop for look-ups.
#[inline(always)]
fn picked(normal: Normal, output: &mut [u32], colour: impl Fn(u8) -> u32) {
    match (normal.depth, normal.entry.high_half()) {
        (16, false) => fours_of_16(normal.bytes, output, |pixel| colour(pixel as u8)),
        (16, true) => fours_of_16(normal.bytes, output, |pixel| colour((pixel >> 8) as u8)),
        (_, false) => fours_of_32(normal.bytes, output, |[_, _, _, sample]| colour(sample)),
        (_, true) => fours_of_32(normal.bytes, output, |[_, sample, _, _]| colour(sample)),
    }
}

/// Each sample of 12 or 15 bits, in a loop for look-ups.
#[inline(always)]
fn looked_up(normal: Normal, output: &mut [u32], colour: impl Fn(u16) -> u32) {
    match (normal.depth, normal.entry.high_half()) {
        (16, _) => fours_of_16(normal.bytes, output, colour),
        (_, false) => fours_of_32(normal.bytes, output, |pixel| colour(u32::from_be_bytes(pixel) as u16)),
        (_, true) => fours_of_32(normal.bytes, output, |pixel| colour((u32::from_be_bytes(pixel) >> 16) as u16)),
    }
}

/// Each sample of 12 or 15 bits, in a loop for vectors.
#[inline(always)]
fn worked_out(normal: Normal, output: &mut [u32], colour: fn(u32) -> u32) {
    match (normal.depth, normal.entry.high_half()) {
        (16, _) => each(normal.bytes, output, |pixel| colour(u16::from_be_bytes(pixel).into())),
        (_, false) => each(normal.bytes, output, |pixel| colour(u32::from_be_bytes(pixel))),
        (_, true) => each(normal.bytes, output, |pixel| colour(u32::from_be_bytes(pixel) >> 16)),
    }
}

/// The colours of 3-3-2.
static RGB332: Palette = {
    let mut palette = [0; 256];
    let mut sample = 0;
    while sample < 256 {
        let (red, green, blue) = (sample & 7, sample >> 3 & 7, sample >> 6);
        palette[sample as usize] = widened_3(red) << 16 | widened_3(green) << 8 | 85 * blue;
        sample += 1;
    }
    palette
};

/// A channel of 3 bits in 8.
const fn widened_3(value: u32) -> u32 {
    value << 5 | value << 2 | value >> 1
}

/// A colour of 4-4-4, all channels widened at once.
#[inline(always)]
fn rgb444(sample: u32) -> u32 {
    17 * ((sample & 0x0F) << 16 | (sample & 0xF0) << 4 | sample >> 8 & 0x0F)
}

/// A colour of 5-5-5, all channels widened at once.
#[inline(always)]
fn rgb555(sample: u32) -> u32 {
    let spread = (sample & 0x1F) << 16 | (sample & 0x3E0) << 3 | sample >> 10 & 0x1F;
    spread << 3 | spread >> 2 & 0x07_0707
}

/// A colour of 8-8-8, whose bytes stand the other way round in a word.
#[inline(always)]
fn rgb888(pixel: [u8; 4]) -> u32 {
    u32::from_le_bytes(pixel) >> 8
}
