//! Refusals: each fault, and which of two comes first.

use super::*;

pub const VECTORS: [Vector; 10] = [
    ("of two faults the first in the order is told", each_pair_of_faults),
    ("the first faulty pixel from the left is told", left_to_right),
    ("each stray control bit", stray_control_bits),
    ("positions, counts and waiting writes against the rule", bad_states),
    ("origin and size against the total", origin_and_size),
    ("lines below the active height", lines_too_low),
    ("lengths, right and wrong", lengths),
    ("an undefined entry is told under cursor and overlay too", covered_and_undefined),
    ("each undefined entry is told, and not black", undefined_in_the_middle),
    ("a refused line leaves its output", output_stays),
];

/// Line 2 of 8 pixels with everything on; window 1 for pixels 0 to 3, window 2 for 4 to 7.
fn everything_on() -> Case {
    let mut case = plain(16, 8);
    case.y = 2;
    case.switch_on(IDS_ON);
    case.overlay_row(&[0, 1, 0, 1, 0, 1, 0, 1]);
    case.cursor(5, 7);
    case.state.control[7] = fields(7, 9);
    case.table = vec![0; 516];
    case.put_table(0, &0x0009_0100_u32.to_be_bytes());
    case.put_table(512, &[0x00, 0x61, 0xFF, 0xE2]);
    for id in 0..32 {
        case.window(id, OVERLAY_ALLOWED | bank(id as u32 % 18));
    }
    case
}

/// A number, a place, and what puts the fault in.
type Fault = (u32, u32, fn(&mut Case));

/// In the order in which they are told. With the fault of number 6 the line is 10.
const FAULTS: [Fault; 12] = [
    (11, 0, |case| case.state.control[0] |= 0x20),
    (10, 0, |case| case.state.control[6] = fields(0, 4095)),
    (6, 10, |case| case.y = 10),
    (5, 1, |case| case.store.push(0)),
    (5, 2, |case| case.table.resize(65_537, 0)),
    (5, 3, |case| case.normal.push(0)),
    (5, 4, |case| case.overlay.truncate(7)),
    (5, 5, |case| case.output.truncate(7)),
    (7, 2, |case| case.table = vec![0x00, 0x01, 0x01, 0x00]),
    (9, 0, |case| case.window(1, 0x80C)),
    (9, 4, |case| case.window(2, 0x1000)),
    (8, 5, |case| case.put_table(514, &[0x00, 0x82])),
];

fn each_pair_of_faults(pair: &mut Pair) -> Compared<()> {
    assert_eq!(pair.lend(&everything_on())?.number, 0, "without a fault it is drawn");
    for (first, &(number, place, fault)) in FAULTS.iter().enumerate() {
        let mut one = everything_on();
        fault(&mut one);
        pair.expect(&one, Wanted::Refused(number, place))?;
        for (_, _, later) in &FAULTS[first + 1..] {
            let mut both = everything_on();
            later(&mut both);
            fault(&mut both);
            pair.expect(&both, Wanted::Refused(number, place))?;
        }
        let mut all = everything_on();
        for (_, _, later) in FAULTS[first..].iter().rev() {
            later(&mut all);
        }
        pair.expect(&all, Wanted::Refused(number, place))?;
    }
    Ok(())
}

/// Ends of three line entries, which of their windows are undefined, and number and place of the refusal, on 8 pixels.
type Ends = ([u16; 3], [bool; 3], Option<(u32, u32)>);

const LEFT_TO_RIGHT: [Ends; 10] = [
    ([1, 3, 7], [false; 3], None),
    ([1, 3, 7], [false, false, true], Some((9, 4))),
    ([1, 3, 7], [false, true, true], Some((9, 2))),
    ([1, 3, 7], [true, true, true], Some((9, 0))),
    ([1, 3, 5], [false, false, false], Some((8, 6))),
    ([1, 3, 5], [false, true, false], Some((9, 2))),
    ([1, 3, 5], [false, false, true], Some((9, 4))),
    // The second entry serves no pixel, so that its window doesn't count.
    ([3, 1, 7], [false, true, false], None),
    ([3, 1, 5], [false, true, false], Some((8, 6))),
    ([7, 7, 7], [false, true, true], None),
];

fn left_to_right(pair: &mut Pair) -> Compared<()> {
    for (ends, undefined, refusal) in LEFT_TO_RIGHT {
        let mut case = everything_on();
        case.table.truncate(512);
        for (id, (end, undefined)) in (1..).zip(ends.into_iter().zip(undefined)) {
            case.table.extend(entry(end, id).to_be_bytes());
            case.window(id as usize, if undefined { 0x120 } else { BYPASS });
        }
        match refusal {
            Some((number, place)) => pair.expect(&case, Wanted::Refused(number, place))?,
            None => assert_eq!(pair.lend(&case)?.number, 0, "ends {ends:?}, undefined {undefined:?}"),
        }
    }
    Ok(())
}

/// A state that is refused by 11, or isn't.
fn try_state(pair: &mut Pair, case: &Case, refused: bool) -> Compared<()> {
    if refused {
        pair.expect(case, Wanted::Refused(11, 0))
    } else {
        let answer = pair.lend(case)?;
        assert_ne!(answer.number, 11, "not against the rule:\n{case}");
        Ok(())
    }
}

fn stray_control_bits(pair: &mut Pair) -> Compared<()> {
    for (word, bit) in (0..9).flat_map(|word| (0..32).map(move |bit| (word, bit))) {
        let kept = match word {
            0 => 0x0000_001F,
            7 => 0x07FF_07FF,
            _ => 0x0FFF_0FFF,
        };
        for mut case in [everything_on(), plain(32, 2)] {
            case.state.control[word] |= 1 << bit;
            try_state(pair, &case, kept & 1 << bit == 0)?;
        }
    }
    Ok(())
}

fn bad_states(pair: &mut Pair) -> Compared<()> {
    let mut case = everything_on();
    for (p, refused) in [(4095, false), (4096, true), (65_536, true), (u32::MAX, true)] {
        case.state.at.x = p;
        try_state(pair, &case, refused)?;
        case.state.at.y = p;
        try_state(pair, &case, refused)?;
        case.state.at.x = 0;
        try_state(pair, &case, refused)?;
        case.state.at.y = 0;
    }
    for (waiting, refused) in [(0, false), (64, false), (65, true), (256, true), (1 << 31, true), (u32::MAX, true)] {
        case.state.queue.waiting = waiting;
        try_state(pair, &case, refused)?;
    }
    for slot in 0..64 {
        for (entry, colour, bad) in
            [(4607, 0xFF_FFFF, false), (4608, 0, true), (u32::MAX, 0, true), (0, 1 << 24, true), (0, u32::MAX, true)]
        {
            let mut case = everything_on();
            case.state.queue.slots[slot].entry = entry;
            case.state.queue.slots[slot].colour = colour;
            for (waiting, counts) in [(slot, false), (slot + 1, true), (64, true)] {
                case.state.queue.waiting = waiting as u32;
                try_state(pair, &case, bad && counts)?;
            }
        }
    }
    Ok(())
}

/// Origin, size and total one way, and whether they are right.
const SIZES: [(u32, u32, u32, bool); 14] = [
    (0, 1, 1, true),
    (1, 1, 1, false),
    (0, 2, 1, false),
    (0, 2, 2, true),
    (1, 1, 2, true),
    (1, 2, 2, false),
    (3, 4, 7, true),
    (3, 4, 6, false),
    (4, 4, 7, false),
    (2048, 2048, 4096, true),
    (2049, 2048, 4096, false),
    (4095, 1, 4096, true),
    (4095, 2, 4096, false),
    (4095, 2048, 1, false),
];

fn origin_and_size(pair: &mut Pair) -> Compared<()> {
    for (ox, width, total_width, right_across) in SIZES {
        for (oy, height, total_lines, right_down) in SIZES {
            let mut case = plain(16, width);
            case.state.control[1] = fields(total_width - 1, total_lines - 1);
            case.state.control[6] = fields(ox, oy);
            case.state.control[7] = fields(width - 1, height - 1);
            case.y = height - 1;
            let drawn = Wanted::Colours(vec![0xC0_0000; width as usize]);
            pair.expect(&case, if right_across && right_down { drawn } else { Wanted::Refused(10, 0) })?;
        }
    }
    Ok(())
}

fn lines_too_low(pair: &mut Pair) -> Compared<()> {
    for height in [1, 2, 3, 2047, 2048] {
        let mut case = plain(16, 1);
        case.state.control[7] = fields(0, height - 1);
        for y in [0, height - 1] {
            case.y = y;
            pair.expect(&case, colours(&[0xC0_0000]))?;
        }
        for y in [height, height + 1, 4096, 65_536, 1 << 31, u32::MAX] {
            case.y = y;
            pair.expect(&case, Wanted::Refused(6, y))?;
        }
    }
    Ok(())
}

fn lengths(pair: &mut Pair) -> Compared<()> {
    for (depth, width) in [(16, 1), (32, 1), (16, 7), (32, 7), (16, 2048), (32, 2048)] {
        let mut right = plain(depth, width);
        let width = width as usize;
        right.overlay_row(&vec![0; width]);
        let row = right.normal.len();
        let check = |pair: &mut Pair, place, length, right_length, change: &dyn Fn(&mut Case)| {
            let mut case = right.clone();
            change(&mut case);
            let drawn = Wanted::Colours(vec![0xC0_0000; width]);
            pair.expect(&case, if right_length { drawn } else { Wanted::Refused(5, place) })
                .inspect_err(|_| println!("line from Rust: length {length} of part {place}"))
        };
        for length in [0, 1, 32, 4962, 4963, 4964, 10_000] {
            check(pair, 1, length, length == 4963, &|case| case.store.resize(length, 0))?;
        }
        for length in [0, 1, row / 2, row - 1, row, row + 1, 2 * row] {
            check(pair, 3, length, length == row, &|case| case.normal.resize(length, 0))?;
        }
        for length in [0, width - 1, width, width + 1, 2 * width, 4096] {
            check(pair, 4, length, length == width, &|case| case.overlay.resize(length, 0))?;
        }
        for length in [0, width - 1, width, width + 1, 2 * width, 5000] {
            check(pair, 5, length, length >= width, &|case| case.output.resize(length, OLD))?;
        }
    }
    for (length, right) in
        [(4, true), (65_535, true), (65_536, true), (65_537, false), (65_540, false), (131_072, false)]
    {
        let mut case = everything_on();
        case.table.resize(length, 0);
        if length > 4 {
            assert_eq!(pair.lend(&case)?.number, if right { 0 } else { 5 }, "table of {length}");
        }
        case.state.control[0] &= !IDS_ON;
        assert_eq!(pair.lend(&case)?.number, 0, "table of {length}, not looked at");
    }
    Ok(())
}

/// Cross-hair over the whole line, a full glyph, and overlay in every pixel.
fn covered_and_undefined(pair: &mut Pair) -> Compared<()> {
    let mut case = everything_on();
    case.store[GLYPH..CURSOR_COLOURS].fill(u32::MAX);
    case.overlay_row(&[1; 8]);
    case.cursor(8, 2);
    case.window(2, OVERLAY_ALLOWED | bank(18));
    pair.expect(&case, Wanted::Refused(9, 4))?;
    case.switch_on(CROSS_HAIR);
    pair.expect(&case, Wanted::Refused(9, 4))?;
    case.window(1, OVERLAY_ALLOWED | format(1) | BUFFER_1);
    pair.expect(&case, Wanted::Refused(9, 0))?;
    case.state.control[0] &= !CURSOR_ON;
    pair.expect(&case, Wanted::Refused(9, 0))
}

/// Depth and entry.
const UNDEFINED: [(u32, u32); 16] = [
    (16, 0x120),
    (32, 0x120),
    (16, 0x1F1),
    (16, 0x800),
    (16, 0x1000),
    (32, 0x1800),
    (16, format(6)),
    (32, format(6)),
    (16, format(7) | BUFFER_1),
    (32, format(7)),
    (16, format(1) | BUFFER_1),
    (16, format(3) | BUFFER_1),
    (16, format(4) | BUFFER_1),
    (16, format(5)),
    (16, format(5) | BUFFER_1),
    (32, format(5) | BUFFER_1),
];

fn undefined_in_the_middle(pair: &mut Pair) -> Compared<()> {
    for (depth, entry) in UNDEFINED {
        let mut case = everything_on();
        if depth == 32 {
            case.switch_on(DEPTH_32);
            case.normal.resize(32, 0);
        }
        case.window(2, entry);
        pair.expect(&case, Wanted::Refused(9, 4))?;
        case.window(2, BYPASS);
        case.window(3, entry);
        assert_eq!(pair.lend(&case)?.number, 0, "window 3 isn't on the line");
    }
    Ok(())
}

/// The fault is at the last of 2,048 pixels, and the output is longer than the line.
fn output_stays(pair: &mut Pair) -> Compared<()> {
    let mut case = plain(16, 2048);
    case.switch_on(IDS_ON);
    case.table = vec![0; 516];
    case.put_table(0, &0x07FF_0100_u32.to_be_bytes());
    case.put_table(512, &[0xFF, 0xC0, 0xFF, 0xE1]);
    case.window(1, 0x120);
    case.output = (0..2100).map(noise).collect();
    pair.expect(&case, Wanted::Refused(9, 2047))?;
    case.table.truncate(514);
    pair.expect(&case, Wanted::Refused(8, 2047))?;
    case.window(1, BYPASS | bank(1));
    case.table.extend([0xFF, 0xE1]);
    let mut drawn = vec![0xC0_0000; 2048];
    drawn[2047] = 0xC0_0100;
    pair.expect(&case, Wanted::Colours(drawn))
}
