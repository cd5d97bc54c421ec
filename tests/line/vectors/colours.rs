//! Formats, depths, buffers and banks.

use super::*;

pub const VECTORS: [Vector; 7] = [
    ("colours worked out by hand", by_hand),
    ("every entry at both depths, one pixel", every_entry),
    ("every entry of 11 bits at both depths, some pixels", every_entry_on_a_line),
    ("every sample of 16 bits in each format and buffer", every_sample),
    ("each channel of 8 bits in each value", every_channel),
    ("each sample of 3-3-2 by hand, in short runs and long ones", every_332),
    ("runs of 1 to 640 pixels in each format", every_length),
];

/// Why, depth, entry, sample, colour.
type Row = (&'static str, u32, u32, u32, u32);

const BY_HAND: [Row; 26] = [
    ("format 0 is the low byte", 16, BYPASS, 0x1234, 0xC0_0034),
    ("buffer 1 is the high byte, bank 2 adds 512", 16, BYPASS | BUFFER_1 | bank(2), 0x1234, 0xC0_0212),
    ("the last entry is 256 · 17 + 255", 16, BYPASS | bank(17), 0x00FF, 0xC0_11FF),
    ("at depth 32 the low byte of the low half", 32, BYPASS, 0xABCD_1234, 0xC0_0034),
    ("at depth 32 the low byte of the high half", 32, BYPASS | BUFFER_1, 0xABCD_1234, 0xC0_00CD),
    ("12 bits of the whole", 16, BYPASS | format(1), 0xF234, 0xC0_0234),
    ("bank 31 is ignored in format 1", 16, BYPASS | format(1) | bank(31), 0xF234, 0xC0_0234),
    ("12 bits of the low half", 32, BYPASS | format(1), 0xABCD_F234, 0xC0_0234),
    ("12 bits of the high half", 32, BYPASS | format(1) | BUFFER_1, 0xABCD_F234, 0xC0_0BCD),
    ("0x9D: red 5 → 182, green 3 → 109, blue 2 → 170", 16, BYPASS | format(2), 0x629D, 0xB6_6DAA),
    ("0x62: red 2 → 73, green 4 → 146, blue 1 → 85", 16, BYPASS | format(2) | BUFFER_1, 0x629D, 0x49_9255),
    ("0x9D in the low half", 32, BYPASS | format(2), 0xF062_F09D, 0xB6_6DAA),
    ("0x62 in the high half", 32, BYPASS | format(2) | BUFFER_1, 0xF062_F09D, 0x49_9255),
    ("bank 18 is ignored in format 2", 32, BYPASS | format(2) | bank(18), 0xF062_F09D, 0xB6_6DAA),
    ("0xC53: red 3 → 0x33, green 5 → 0x55, blue 12 → 0xCC", 16, BYPASS | format(3), 0xFC53, 0x33_55CC),
    ("0xC53 in the low half", 32, BYPASS | format(3), 0x0000_1C53, 0x33_55CC),
    ("0xC53 in the high half", 32, BYPASS | format(3) | BUFFER_1, 0xFC53_0000, 0x33_55CC),
    ("0x7C30: red 16 → 132, green 1 → 8, blue 31 → 255", 16, BYPASS | format(4), 0xFC30, 0x84_08FF),
    ("0x7C30 in the low half", 32, BYPASS | format(4), 0x0000_7C30, 0x84_08FF),
    ("0x7C30 in the high half", 32, BYPASS | format(4) | BUFFER_1, 0xFC30_0000, 0x84_08FF),
    ("red lowest, green, blue", 32, BYPASS | format(5), 0xEE56_3412, 0x12_3456),
    ("0xC00034 by gamma: 255 − 0xC0, 0x00 + 1, 0x34 xor 0x55", 16, 0, 0x1234, 0x3F_0161),
    ("0x123456 by gamma: 255 − 0x12, 0x34 + 1, 0x56 xor 0x55", 32, format(5), 0xEE56_3412, 0xED_3503),
    ("0x00FF00 by gamma: green 255 has 0", 32, format(5), 0x0000_FF00, 0xFF_0055),
    ("0xB66DAA by gamma: 255 − 0xB6, 0x6D + 1, 0xAA xor 0x55", 16, format(2), 0x629D, 0x49_6EFF),
    ("0x8408FF by gamma: 255 − 0x84, 0x08 + 1, 0xFF xor 0x55", 16, format(4), 0xFC30, 0x7B_09AA),
];

fn by_hand(pair: &mut Pair) -> Compared<()> {
    for (why, depth, entry, sample, colour) in BY_HAND {
        let mut case = plain(depth, 1);
        case.window(0, entry);
        case.sample(0, sample);
        let compared = pair.expect(&case, colours(&[colour]));
        compared.inspect_err(|_| println!("line from Rust: {why}"))?;
    }
    Ok(())
}

/// Of 8,192 entries 784 are defined at depth 16 and 1,296 at depth 32; the others are refused at pixel 0.
fn every_entry(pair: &mut Pair) -> Compared<()> {
    for (depth, defined) in [(16, 784), (32, 1296)] {
        let mut drawn = 0;
        for entry in 0..8192 {
            let mut case = plain(depth, 1);
            case.window(0, entry);
            case.sample(0, noise(entry));
            case.overlay_row(&[noise(entry) as u8 & 0x81]);
            let answer = pair.lend(&case)?;
            drawn += u32::from(answer.number == 0);
            assert!(answer.number == 0 || (answer.number, answer.place) == (9, 0), "entry {entry:#x}");
        }
        assert_eq!(drawn, defined, "entries drawn at depth {depth}");
    }
    Ok(())
}

fn every_entry_on_a_line(pair: &mut Pair) -> Compared<()> {
    for depth in [16, 32] {
        for entry in 0..2048 {
            let mut case = noisy(depth, 40, entry);
            case.window(0, entry);
            case.overlay_row(&[0, 1, 2, 0, 255].repeat(8));
            pair.lend(&case)?;
        }
    }
    Ok(())
}

/// Format and buffer, with each bank that is an edge where banks count.
fn entries() -> impl Iterator<Item = u32> {
    let banks = |number| if number == 0 { &[0, 1, 16, 17][..] } else { &[0, 31] };
    (0..6).flat_map(move |number| {
        banks(number).iter().flat_map(move |&of| [0, BUFFER_1].map(|buffer| format(number) | bank(of) | buffer))
    })
}

/// All 65,536 samples in 32 lines, with and without gamma; at depth 32 in either half, over noise in the other.
fn every_sample(pair: &mut Pair) -> Compared<()> {
    for entry in entries() {
        for (depth, shift) in [(16, 0), (32, 0), (32, 16)] {
            let mut case = noisy(depth, 2048, entry);
            for (line, bypass) in (0..32).flat_map(|line| [(line, 0), (line, BYPASS)]) {
                case.window(0, entry | bypass);
                for x in 0..2048 {
                    let noise = noise(line << 11 | x) & !(0xFFFF << shift);
                    case.sample(x as usize, (line << 11 | x) << shift | noise);
                }
                pair.lend(&case)?;
            }
        }
    }
    Ok(())
}

fn every_channel(pair: &mut Pair) -> Compared<()> {
    for (bypass, shift) in [0, BYPASS].into_iter().flat_map(|bypass| [0, 8, 16].map(|shift| (bypass, shift))) {
        let mut case = noisy(32, 256, shift);
        case.window(0, bypass | format(5));
        for value in 0..256 {
            case.sample(value as usize, noise(value) & !(255 << shift) | value << shift);
        }
        pair.lend(&case)?;
    }
    Ok(())
}

/// What each number of 3 bits widens to.
const THREE_BITS: [u32; 8] = [0, 36, 73, 109, 146, 182, 219, 255];

/// What each number of 2 bits widens to.
const TWO_BITS: [u32; 4] = [0, 85, 170, 255];

/// Samples 0 to 255 again and again, from either buffer at both depths, past gamma and through it.
fn every_332(pair: &mut Pair) -> Compared<()> {
    let buffers = [(16, 0, 0), (16, BUFFER_1, 8), (32, 0, 0), (32, BUFFER_1, 16)];
    for ((depth, buffer, shift), bypass) in buffers.into_iter().flat_map(|of| [(of, 0), (of, BYPASS)]) {
        for width in [1, 8, 256, 511, 512, 513, 2048] {
            let mut case = plain(depth, width);
            case.window(0, format(2) | buffer | bypass);
            let mut wanted = Vec::new();
            for x in 0..width {
                let sample = x % 256;
                case.sample(x as usize, noise(x) & !(255 << shift) | sample << shift);
                let [red, green] = [sample, sample >> 3].map(|bits| THREE_BITS[bits as usize % 8]);
                let blue = TWO_BITS[sample as usize >> 6];
                let through_gamma = [255 - red, (green + 1) % 256, blue ^ 0x55];
                let [red, green, blue] = if bypass == 0 { through_gamma } else { [red, green, blue] };
                wanted.push(red << 16 | green << 8 | blue);
            }
            pair.expect(&case, colours(&wanted))?;
        }
    }
    Ok(())
}

/// Lines of one run and of 1 to 640 pixels.
fn every_length(pair: &mut Pair) -> Compared<()> {
    for (depth, formats) in [(16, 5), (32, 6)] {
        for entry in (0..formats).flat_map(|number| [format(number), format(number) | BYPASS]) {
            for width in 1..=640 {
                let mut case = noisy(depth, width, entry);
                case.window(0, entry);
                pair.lend(&case)?;
            }
        }
    }
    Ok(())
}

/// The same as a plain line but for noise in the row and in all blocks of the store but the first.
pub fn noisy(depth: u32, width: u32, seed: u32) -> Case {
    let mut case = plain(depth, width);
    for (number, word) in (0..).zip(&mut case.store[MAP..]) {
        *word = noise(seed << 13 ^ number);
    }
    for (number, byte) in (0..).zip(&mut case.normal) {
        *byte = noise(seed << 13 ^ 0x1000_0000 ^ number) as u8;
    }
    case
}
