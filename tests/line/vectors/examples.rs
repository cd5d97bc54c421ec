//! The paper's own examples, as lines.

use super::*;

pub const VECTORS: [Vector; 8] = [
    ("the whole case", whole_case),
    ("(a), (b), (c): channels widen", channels_widen),
    ("(f): a cursor at (0, 0)", cursor_at_the_origin),
    ("(g): bank 17 is defined, bank 18 isn't", banks_17_and_18),
    ("(h): map entry 530", map_entry_530),
    ("(i): map entry 3,021", map_entry_3021),
    ("(j), (k): window IDs 3 and 7", window_ids_3_and_7),
    ("(l): overlay byte 1 is map entry 4,353", overlay_byte_1),
];

/// Entry 5 of the map was written, and window entry 0; all else is 0.
fn whole_case(pair: &mut Pair) -> Compared<()> {
    let mut store = vec![0; 4963];
    store[32 + 5] = 0x10_2030;
    store[0] = 0x200;
    let mut state = State::FRESH;
    state.control[4] = fields(0, 1);
    let (table, overlay) = (Vec::new(), Vec::new());
    let mut case = Case { state, y: 0, store, table, normal: vec![0, 5], overlay, output: vec![OLD] };
    pair.expect(&case, colours(&[0x10_2030]))?;
    case.y = 1;
    pair.expect(&case, Wanted::Refused(6, 1))
}

/// 3 bits: 5 becomes 182. 2 bits: 3 becomes 255. 5 bits: 16 becomes 132.
fn channels_widen(pair: &mut Pair) -> Compared<()> {
    let mut case = plain(16, 1);
    case.window(0, BYPASS | format(2));
    case.sample(0, 3 << 6 | 5 << 3 | 5);
    pair.expect(&case, colours(&[182 << 16 | 182 << 8 | 255]))?;
    case.window(0, BYPASS | format(4));
    case.sample(0, 16 << 10 | 16 << 5 | 16);
    pair.expect(&case, colours(&[132 << 16 | 132 << 8 | 132]))
}

/// Pixel (0, 0) is the lowest two bits of word 63, and (1, 0) has none.
fn cursor_at_the_origin(pair: &mut Pair) -> Compared<()> {
    let mut case = plain(16, 2);
    case.cursor(0, 0);
    case.store[GLYPH..CURSOR_COLOURS].fill(0);
    case.store[GLYPH + 63] = 2;
    pair.expect(&case, colours(&[0x04_0506, 0xC0_0000]))?;
    case.store[GLYPH..CURSOR_COLOURS].fill(u32::MAX);
    case.store[GLYPH + 63] = 0xFFFF_FFFC;
    pair.expect(&case, colours(&[0xC0_0000, 0xC0_0000]))
}

fn banks_17_and_18(pair: &mut Pair) -> Compared<()> {
    for depth in [16, 32] {
        let mut case = plain(depth, 1);
        case.window(0, BYPASS | 0x110);
        case.sample(0, 0xFF);
        pair.expect(&case, colours(&[0xC0_0000 + 4607]))?;
        case.window(0, BYPASS | 0x120);
        pair.expect(&case, Wanted::Refused(9, 0))?;
    }
    Ok(())
}

fn map_entry_530(pair: &mut Pair) -> Compared<()> {
    let mut case = plain(16, 1);
    case.window(0, BYPASS | BUFFER_1 | bank(2));
    case.sample(0, 0x1234);
    pair.expect(&case, colours(&[0xC0_0000 + 530]))
}

fn map_entry_3021(pair: &mut Pair) -> Compared<()> {
    let mut case = plain(32, 1);
    case.window(0, BYPASS | BUFFER_1 | format(1));
    case.sample(0, 0xABCD_1234);
    pair.expect(&case, colours(&[0xC0_0000 + 3021]))
}

/// The frame entry serves all lines, from byte 512 on. Bank i shows ID i.
fn window_ids_3_and_7(pair: &mut Pair) -> Compared<()> {
    let mut case = plain(16, 3);
    case.switch_on(IDS_ON);
    case.table = vec![0; 516];
    case.put_table(0, &0x07FF_0100_u32.to_be_bytes());
    case.put_table(512, &[0x00, 0x03, 0xFF, 0xE7]);
    case.window(3, BYPASS | bank(3));
    case.window(7, BYPASS | bank(7));
    for y in 0..2048 {
        case.y = y;
        pair.expect(&case, colours(&[0xC0_0000 + 3 * 256, 0xC0_0000 + 7 * 256, 0xC0_0000 + 7 * 256]))?;
    }
    Ok(())
}

fn overlay_byte_1(pair: &mut Pair) -> Compared<()> {
    let mut case = plain(16, 1);
    case.window(0, BYPASS | OVERLAY_ALLOWED);
    case.overlay_row(&[1]);
    pair.expect(&case, colours(&[0xC0_0000 + 4353]))
}
