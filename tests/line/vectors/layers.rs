//! Overlay, gamma, cursor and cross-hair.

use super::colours::noisy;
use super::*;

pub const VECTORS: [Vector; 12] = [
    ("overlay counts where both switches are on and its byte isn't 0", overlay_switches),
    ("every overlay byte", every_overlay_byte),
    ("the overlay row isn't looked at where overlay is off", overlay_off),
    ("cursor over overlay over the chosen buffer, cursor past gamma", order_of_layers),
    ("each glyph cell alone", each_glyph_cell),
    ("each pair of bits of an uneven glyph", uneven_glyph),
    ("glyph at each edge of the picture", glyph_at_the_edges),
    ("every cursor place around a small picture", every_cursor_place),
    ("cursor at the ends of its range", far_cursor),
    ("arms of the cross-hair", cross_hair_arms),
    ("cross-hair needs the cursor, and ignores the glyph", cross_hair_switches),
    ("all layers over 2,048 pixels in 256 runs", all_layers),
];

/// Overlay on, allowed, byte, gamma bypassed, colour: 0xC00034 below, 0xC01107 by byte 7.
const OVERLAYS: [(bool, bool, u8, bool, u32); 12] = [
    (true, true, 7, true, 0xC0_1107),
    (true, true, 0, true, 0xC0_0034),
    (true, false, 7, true, 0xC0_0034),
    (true, false, 0, true, 0xC0_0034),
    (false, true, 7, true, 0xC0_0034),
    (false, false, 7, true, 0xC0_0034),
    (true, true, 255, true, 0xC0_11FF),
    // Gamma has 255 − 0xC0 and then 0x11 + 1, 0x07 xor 0x55, or 0x00 + 1, 0x34 xor 0x55.
    (true, true, 7, false, 0x3F_1252),
    (true, true, 0, false, 0x3F_0161),
    (true, false, 7, false, 0x3F_0161),
    (false, true, 7, false, 0x3F_0161),
    (false, false, 7, false, 0x3F_0161),
];

fn overlay_switches(pair: &mut Pair) -> Compared<()> {
    for (on, allowed, byte, bypassed, colour) in OVERLAYS {
        for depth in [16, 32] {
            let mut case = plain(depth, 1);
            case.sample(0, 0x34);
            case.window(0, if allowed { OVERLAY_ALLOWED } else { 0 } | if bypassed { BYPASS } else { 0 });
            case.overlay_row(&[byte]);
            case.state.control[0] &= if on { !0 } else { !OVERLAY_ON };
            pair.expect(&case, colours(&[colour]))?;
        }
    }
    Ok(())
}

fn every_overlay_byte(pair: &mut Pair) -> Compared<()> {
    for bypass in [0, BYPASS] {
        let mut case = noisy(16, 256, bypass);
        case.window(0, OVERLAY_ALLOWED | bypass);
        case.overlay_row(&(0..=255).collect::<Vec<_>>());
        pair.lend(&case)?;
    }
    let mut case = plain(16, 256);
    case.window(0, OVERLAY_ALLOWED | BYPASS);
    case.overlay_row(&(0..=255).collect::<Vec<_>>());
    let by_byte = |byte: u32| if byte == 0 { 0xC0_0000 } else { 0xC0_0000 + 4352 + byte };
    pair.expect(&case, Wanted::Colours((0..256).map(by_byte).collect()))
}

fn overlay_off(pair: &mut Pair) -> Compared<()> {
    for length in [0, 1, 2, 3, 4, 5, 2048, 2049, 70_000] {
        let mut case = plain(16, 3);
        case.window(0, OVERLAY_ALLOWED | BYPASS);
        case.overlay = vec![9; length];
        pair.expect(&case, colours(&[0xC0_0000; 3]))?;
    }
    Ok(())
}

/// Eight pixels of row 0 and columns 0 to 7: cursor 1, none, 2, none, 3, none, 1, none; overlay 0, 0, 8, 8, 0, 0, 8, 8.
fn order_of_layers(pair: &mut Pair) -> Compared<()> {
    let mut case = plain(16, 8);
    case.overlay_row(&[0, 0, 8, 8, 0, 0, 8, 8]);
    case.cursor(31, 31);
    case.store[GLYPH] = 0b01_00_10_00_11_00_01_00 << 16;
    case.window(0, OVERLAY_ALLOWED | BYPASS);
    let (below, over) = (0xC0_0000, 0xC0_1108);
    pair.expect(&case, colours(&[0x01_0203, below, 0x04_0506, over, 0x07_0809, below, 0x01_0203, over]))?;
    case.window(0, OVERLAY_ALLOWED);
    let (below, over) = (0x3F_0155, 0x3F_125D);
    pair.expect(&case, colours(&[0x01_0203, below, 0x04_0506, over, 0x07_0809, below, 0x01_0203, over]))
}

/// With the cursor at (31, 31) column and row are x and y.
fn each_glyph_cell(pair: &mut Pair) -> Compared<()> {
    for (row, column) in (0..32).flat_map(|row| (0..32).map(move |column| (row, column))) {
        let number = 1 + (row + column) % 3;
        let mut case = plain(16, 33);
        case.cursor(31, 31);
        case.glyph_cell(row, column, number as u32);
        let mut wanted = vec![0xC0_0000; 33];
        for y in [row + 1, row.saturating_sub(1)].into_iter().filter(|&y| y != row) {
            case.y = y as u32;
            pair.expect(&case, colours(&wanted))?;
        }
        wanted[column] = [0x01_0203, 0x04_0506, 0x07_0809][number - 1];
        case.y = row as u32;
        pair.expect(&case, colours(&wanted))?;
    }
    Ok(())
}

/// Word 2 is 0x1B followed by zeros, 0b00_01_10_11: row 1 begins with none, 1, 2, 3. Word 3 ends in 0xE4, 0b11_10_01_00.
fn uneven_glyph(pair: &mut Pair) -> Compared<()> {
    let mut case = plain(32, 40);
    case.store[GLYPH + 2] = 0x1B00_0000;
    case.store[GLYPH + 3] = 0x0000_00E4;
    case.cursor(35, 100);
    case.y = 70;
    let mut wanted = vec![0xC0_0000; 40];
    wanted[5..8].copy_from_slice(&[0x01_0203, 0x04_0506, 0x07_0809]);
    wanted[32..35].copy_from_slice(&[0x07_0809, 0x04_0506, 0x01_0203]);
    pair.expect(&case, colours(&wanted))
}

/// Cursor x, cursor y, line, and the pixels from and up to which a full glyph shows on a line of 40.
const EDGES: [(u32, u32, u32, usize, usize); 16] = [
    (0, 9, 9, 0, 1),
    (5, 9, 9, 0, 6),
    (31, 9, 9, 0, 32),
    (32, 9, 9, 1, 33),
    (39, 9, 9, 8, 40),
    (40, 9, 9, 9, 40),
    (69, 9, 9, 38, 40),
    (70, 9, 9, 39, 40),
    (71, 9, 9, 40, 40),
    (4095, 9, 9, 40, 40),
    (5, 8, 9, 0, 0),
    (5, 10, 9, 0, 6),
    (5, 40, 9, 0, 6),
    (5, 41, 9, 0, 0),
    (5, 0, 0, 0, 6),
    (5, 31, 0, 0, 6),
];

fn glyph_at_the_edges(pair: &mut Pair) -> Compared<()> {
    for (cx, cy, y, from, to) in EDGES {
        let mut case = plain(16, 40);
        case.store[GLYPH..CURSOR_COLOURS].fill(u32::MAX);
        case.cursor(cx, cy);
        case.y = y;
        let mut wanted = vec![0xC0_0000; 40];
        wanted[from..to].fill(0x07_0809);
        pair.expect(&case, colours(&wanted))?;
    }
    Ok(())
}

fn every_cursor_place(pair: &mut Pair) -> Compared<()> {
    for cross_hair in [0, CROSS_HAIR] {
        let mut case = noisy(16, 12, 3);
        case.switch_on(cross_hair);
        case.state.control[7] = fields(11, 4);
        for (cx, cy) in (0..46).flat_map(|cx| (0..39).map(move |cy| (cx, cy))) {
            case.cursor(cx, cy);
            for y in [0, 1, 4] {
                case.y = y;
                pair.lend(&case)?;
            }
        }
    }
    Ok(())
}

/// Also at the last pixel of the largest picture.
fn far_cursor(pair: &mut Pair) -> Compared<()> {
    let places = [0, 1, 31, 32, 2016, 2017, 2046, 2047, 2048, 2077, 2078, 2079, 2080, 4094, 4095];
    for (cx, cy) in places.into_iter().flat_map(|cx| places.map(|cy| (cx, cy))) {
        for cross_hair in [0, CROSS_HAIR] {
            let mut case = noisy(16, 2048, 5);
            case.switch_on(cross_hair);
            case.cursor(cx, cy);
            for y in [0, 2047] {
                case.y = y;
                pair.lend(&case)?;
            }
        }
    }
    Ok(())
}

/// Cursor x and y, line, and which of four pixels show colour 1.
const ARMS: [(u32, u32, u32, [bool; 4]); 8] = [
    (2, 9, 5, [false, false, true, false]),
    (0, 9, 5, [true, false, false, false]),
    (3, 9, 5, [false, false, false, true]),
    (4, 9, 5, [false; 4]),
    (2, 5, 5, [true; 4]),
    (4, 5, 5, [true; 4]),
    (4095, 4095, 5, [false; 4]),
    (4095, 0, 0, [true; 4]),
];

fn cross_hair_arms(pair: &mut Pair) -> Compared<()> {
    for (cx, cy, y, shown) in ARMS {
        let mut case = plain(16, 4);
        case.window(0, OVERLAY_ALLOWED);
        case.overlay_row(&[0, 7, 7, 0]);
        case.cursor(cx, cy);
        case.switch_on(CROSS_HAIR);
        case.store[GLYPH..CURSOR_COLOURS].fill(0xAAAA_AAAA);
        case.y = y;
        let below = [0x3F_0155, 0x3F_1252, 0x3F_1252, 0x3F_0155];
        let wanted: [u32; 4] = std::array::from_fn(|x| if shown[x] { 0x01_0203 } else { below[x] });
        pair.expect(&case, colours(&wanted))?;
    }
    Ok(())
}

fn cross_hair_switches(pair: &mut Pair) -> Compared<()> {
    let mut case = plain(16, 2);
    case.store[GLYPH..CURSOR_COLOURS].fill(u32::MAX);
    case.cursor(1, 3);
    pair.expect(&case, colours(&[0x07_0809, 0x07_0809]))?;
    case.switch_on(CROSS_HAIR);
    pair.expect(&case, colours(&[0xC0_0000, 0x01_0203]))?;
    case.state.control[0] = CROSS_HAIR;
    pair.expect(&case, colours(&[0xC0_0000, 0xC0_0000]))
}

/// Windows of all formats that the depth has, 8 pixels each, with the cursor on the right edge.
fn all_layers(pair: &mut Pair) -> Compared<()> {
    for (depth, formats) in [(16, 5), (32, 6)] {
        let mut case = noisy(depth, 2048, 7);
        case.switch_on(IDS_ON);
        case.overlay_row(&[0, 0, 5, 0, 255].repeat(410)[..2048]);
        case.cursor(2060, 70);
        case.table = vec![0; 1024];
        case.put_table(0, &0x07FF_0100_u32.to_be_bytes());
        for run in 0..256 {
            case.put_table(512 + 2 * run as usize, &entry(8 * run + 7, run % 32).to_be_bytes());
        }
        for id in 0..32 {
            case.window(id as usize, noise(id) & 0x600 | format(id % formats) | bank(id % 18));
        }
        for y in 30..80 {
            case.y = y;
            assert_eq!(pair.lend(&case)?.number, 0, "all windows are defined");
        }
    }
    Ok(())
}
