//! Frame tables, line tables and window IDs.

use super::colours::noisy;
use super::*;

pub const VECTORS: [Vector; 7] = [
    ("tables worked out by hand", by_hand),
    ("2,048 frame entries are looked at, and no more", last_frame_entry),
    ("no whole frame entry in up to 3 bytes", short_tables),
    ("every length around the ends of entries and blocks", every_length),
    ("every block and offset in tables of several lengths", every_start),
    ("every ID", every_id),
    ("the table isn't looked at where IDs are off", ids_off),
];

/// A table with zeros in all bytes that aren't given, and the IDs of four pixels or the refusal.
struct Row {
    why: &'static str,
    y: u32,
    bytes: usize,
    frame: &'static [u32],
    line_at: usize,
    line: &'static [u16],
    wanted: Result<[u32; 4], (u32, u32)>,
}

const BY_HAND: [Row; 30] = [
    Row {
        why: "one entry for all pixels",
        y: 0,
        bytes: 514,
        frame: &[0x07FF_0100],
        line_at: 512,
        line: &[entry(2047, 5)],
        wanted: Ok([5; 4]),
    },
    Row {
        why: "an end holds its own pixel",
        y: 0,
        bytes: 520,
        frame: &[0x07FF_0100],
        line_at: 512,
        line: &[entry(0, 1), entry(1, 2), entry(2, 3), entry(3, 4)],
        wanted: Ok([1, 2, 3, 4]),
    },
    Row {
        why: "an end that is lower than the one before is passed over",
        y: 0,
        bytes: 520,
        frame: &[0x07FF_0100],
        line_at: 512,
        line: &[entry(2, 1), entry(1, 2), entry(2, 3), entry(9, 4)],
        wanted: Ok([1, 1, 1, 4]),
    },
    Row {
        why: "the first of two entries with one end serves",
        y: 0,
        bytes: 518,
        frame: &[0x07FF_0100],
        line_at: 512,
        line: &[entry(1, 6), entry(1, 7), entry(3, 8)],
        wanted: Ok([6, 6, 8, 8]),
    },
    Row {
        why: "a frame entry's end holds its own line",
        y: 3,
        bytes: 1026,
        frame: &[0x0003_0100, 0x07FF_0200],
        line_at: 512,
        line: &[entry(3, 1)],
        wanted: Ok([1; 4]),
    },
    Row {
        why: "a line past the first end has the next entry, whose table at 1,024 is zeros",
        y: 4,
        bytes: 1026,
        frame: &[0x0003_0100, 0x07FF_0200],
        line_at: 512,
        line: &[entry(3, 1)],
        wanted: Err((8, 1)),
    },
    Row {
        why: "the first frame entry that reaches far enough, not the nearest",
        y: 3,
        bytes: 1026,
        frame: &[0x0001_0000, 0x0005_0200, 0x0003_0100],
        line_at: 1024,
        line: &[entry(3, 9)],
        wanted: Ok([9; 4]),
    },
    Row {
        why: "frame ends in falling order",
        y: 6,
        bytes: 1026,
        frame: &[0x0005_0100, 0x0004_0100, 0x0007_0200, 0x0006_0100],
        line_at: 1024,
        line: &[entry(3, 9)],
        wanted: Ok([9; 4]),
    },
    Row {
        why: "bits 31..27 and 15 of a frame entry are ignored: end 2, block 1, offset 2",
        y: 2,
        bytes: 518,
        frame: &[0xF802_8102],
        line_at: 516,
        line: &[entry(3, 2)],
        wanted: Ok([2; 4]),
    },
    Row {
        why: "bits 31..27 don't lengthen an end of 2",
        y: 3,
        bytes: 518,
        frame: &[0xF802_8102],
        line_at: 516,
        line: &[entry(3, 2)],
        wanted: Err((7, 3)),
    },
    Row {
        why: "offset 255 leaves one entry of the block",
        y: 0,
        bytes: 1536,
        frame: &[0x07FF_01FF],
        line_at: 1022,
        line: &[entry(3, 2)],
        wanted: Ok([2; 4]),
    },
    Row {
        why: "the line table ends with its block, though an entry follows",
        y: 0,
        bytes: 1536,
        frame: &[0x07FF_01FF],
        line_at: 1022,
        line: &[entry(0, 2), entry(3, 3)],
        wanted: Err((8, 1)),
    },
    Row {
        why: "the same two entries before the block's end",
        y: 0,
        bytes: 1536,
        frame: &[0x07FF_01FE],
        line_at: 1020,
        line: &[entry(0, 2), entry(3, 3)],
        wanted: Ok([2, 3, 3, 3]),
    },
    Row {
        why: "half an entry at the table's end is none",
        y: 0,
        bytes: 515,
        frame: &[0x07FF_0100],
        line_at: 512,
        line: &[entry(0, 2), entry(3, 3)],
        wanted: Err((8, 1)),
    },
    Row {
        why: "one byte of a line table is no entry",
        y: 0,
        bytes: 513,
        frame: &[0x07FF_0100],
        line_at: 512,
        line: &[entry(3, 3)],
        wanted: Err((8, 0)),
    },
    Row {
        why: "a line table that starts at the table's end has no entry",
        y: 0,
        bytes: 512,
        frame: &[0x07FF_0100],
        line_at: 512,
        line: &[],
        wanted: Err((8, 0)),
    },
    Row {
        why: "nor one that starts past it",
        y: 0,
        bytes: 512,
        frame: &[0x07FF_7FFF],
        line_at: 512,
        line: &[],
        wanted: Err((8, 0)),
    },
    Row {
        why: "nor one that starts past it within the same block",
        y: 0,
        bytes: 4,
        frame: &[0x07FF_0003],
        line_at: 4,
        line: &[],
        wanted: Err((8, 0)),
    },
    Row {
        why: "the last entry there can be",
        y: 0,
        bytes: 65_536,
        frame: &[0x07FF_7FFF],
        line_at: 65_534,
        line: &[entry(3, 4)],
        wanted: Ok([4; 4]),
    },
    Row {
        why: "without its last byte there is none",
        y: 0,
        bytes: 65_535,
        frame: &[0x07FF_7FFF],
        line_at: 65_534,
        line: &[entry(3, 4)],
        wanted: Err((8, 0)),
    },
    Row {
        why: "the last entry there can be ends the table",
        y: 0,
        bytes: 65_536,
        frame: &[0x07FF_7FFF],
        line_at: 65_534,
        line: &[entry(2, 4)],
        wanted: Err((8, 3)),
    },
    Row {
        why: "a line table over its own frame entry: 0x0783 is end 60, ID 3",
        y: 0,
        bytes: 4,
        frame: &[0x0783_0000],
        line_at: 4,
        line: &[],
        wanted: Ok([3; 4]),
    },
    Row {
        why: "over the lower half of it: 0x0001 is end 0, ID 1",
        y: 0,
        bytes: 6,
        frame: &[0x07FF_0001],
        line_at: 4,
        line: &[entry(3, 2)],
        wanted: Ok([1, 2, 2, 2]),
    },
    Row {
        why: "no frame entry reaches the line",
        y: 6,
        bytes: 12,
        frame: &[0x0005_0100, 0x0004_0100, 0x0000_0200],
        line_at: 12,
        line: &[],
        wanted: Err((7, 6)),
    },
    Row {
        why: "three bytes of a second frame entry are none",
        y: 6,
        bytes: 7,
        frame: &[0x0005_0001, 0x07FF_0001],
        line_at: 7,
        line: &[],
        wanted: Err((7, 6)),
    },
    Row {
        why: "a frame entry of zeros serves line 0, and its table the zeros of pixel 0",
        y: 0,
        bytes: 4,
        frame: &[0],
        line_at: 4,
        line: &[],
        wanted: Err((8, 1)),
    },
    Row { why: "but not line 1", y: 1, bytes: 64, frame: &[0], line_at: 4, line: &[], wanted: Err((7, 1)) },
    Row {
        why: "an end far past the width",
        y: 2047,
        bytes: 516,
        frame: &[0x07FE_0000, 0x07FF_0100],
        line_at: 512,
        line: &[entry(1, 17), entry(2047, 16)],
        wanted: Ok([17, 17, 16, 16]),
    },
    Row {
        why: "no entry for the last pixel alone",
        y: 0,
        bytes: 520,
        frame: &[0x07FF_0100],
        line_at: 512,
        line: &[entry(2, 1), entry(2, 2), entry(1, 2), entry(0, 2)],
        wanted: Err((8, 3)),
    },
    Row {
        why: "a start in the middle of a block, by offset 3",
        y: 0,
        bytes: 520,
        frame: &[0x07FF_0103],
        line_at: 516,
        line: &[entry(2047, 1), entry(3, 2)],
        wanted: Ok([2; 4]),
    },
];

/// IDs on, four pixels, and bank i for each ID below 18.
fn four_pixels(bytes: usize) -> Case {
    let mut case = plain(16, 4);
    case.switch_on(IDS_ON);
    case.table = vec![0; bytes];
    for id in 0..18 {
        case.window(id, BYPASS | bank(id as u32));
    }
    case
}

fn of_ids(ids: &[u32]) -> Wanted {
    Wanted::Colours(ids.iter().map(|id| 0xC0_0000 + 256 * id).collect())
}

/// Bytes of words that go beyond the table are left out.
fn put(case: &mut Case, at: usize, bytes: impl Iterator<Item = u8>) {
    for (old, new) in case.table.iter_mut().skip(at).zip(bytes) {
        *old = new;
    }
}

fn by_hand(pair: &mut Pair) -> Compared<()> {
    for Row { why, y, bytes, frame, line_at, line, wanted } in BY_HAND {
        let mut case = four_pixels(bytes);
        case.y = y;
        put(&mut case, 0, frame.iter().flat_map(|word| word.to_be_bytes()));
        put(&mut case, line_at, line.iter().flat_map(|word| word.to_be_bytes()));
        let wanted = wanted.map_or_else(|(number, place)| Wanted::Refused(number, place), |ids| of_ids(&ids));
        pair.expect(&case, wanted).inspect_err(|_| println!("line from Rust: {why}"))?;
    }
    Ok(())
}

/// Entries before the one that serves end at line 0. Number 2,047 is the last that is looked at.
fn last_frame_entry(pair: &mut Pair) -> Compared<()> {
    for (number, found) in [(2046, true), (2047, true), (2048, false), (2049, false), (3000, false)] {
        let mut case = four_pixels(16_384);
        case.y = 1;
        case.put_table(4 * number, &0x07FF_1F00_u32.to_be_bytes());
        case.put_table(512 * 31, &entry(3, 11).to_be_bytes());
        pair.expect(&case, if found { of_ids(&[11; 4]) } else { Wanted::Refused(7, 1) })?;
    }
    Ok(())
}

fn short_tables(pair: &mut Pair) -> Compared<()> {
    for (bytes, fill) in (0..4).flat_map(|bytes| [0x00, 0xFF].map(|fill| (bytes, fill))) {
        for y in [0, 1, 2047] {
            let mut case = four_pixels(bytes);
            case.table.fill(fill);
            case.y = y;
            pair.expect(&case, Wanted::Refused(7, y))?;
        }
    }
    Ok(())
}

/// Lengths from 0 up, around each multiple of 512 and around the longest.
fn lengths() -> impl Iterator<Item = usize> {
    let around_blocks = (1..=128).flat_map(|blocks| 512 * blocks - 3..512 * blocks + 6);
    (0..40).chain(around_blocks).chain(65_520..65_541)
}

fn every_length(pair: &mut Pair) -> Compared<()> {
    for length in lengths() {
        for (seed, y) in [(1, 0), (2, 1), (3, 2047)] {
            let mut case = noisy(16, 9, seed);
            case.switch_on(IDS_ON);
            case.y = y;
            case.table = (0..length as u32).map(|at| noise(at ^ seed << 20) as u8).collect();
            for id in 0..32 {
                let noise = noise(id as u32);
                case.window(id, noise & 0x7F0 | format(1 + noise % 4));
            }
            pair.lend(&case)?;
            let (block, offset) = (length / 512 % 128, length % 512 / 2);
            for back in 0..6 {
                let (before, last) = (block.saturating_sub(1), 255 - back);
                for start in [block << 8 | offset.saturating_sub(back), before << 8 | last] {
                    put(&mut case, 0, (0x87FF_8000 | start as u32).to_be_bytes().into_iter());
                    pair.lend(&case)?;
                }
            }
        }
    }
    Ok(())
}

/// Each line entry tells its own place: entry k of the block ends at pixel k / 16 and has ID k mod 16.
fn every_start(pair: &mut Pair) -> Compared<()> {
    for blocks in [1, 2, 128] {
        for cut in [0, 1, 2] {
            let mut case = four_pixels(512 * blocks - cut);
            case.y = 1;
            let entries = (0..256 * blocks as u16).map(|number| entry(number % 256 / 16, number % 16));
            put(&mut case, 0, entries.flat_map(u16::to_be_bytes));
            for start in (0..0x8000_u32).filter(|start| blocks < 128 && *start < 0x300 || start % 37 == 0) {
                put(&mut case, 0, (0x07FF_0000 | start).to_be_bytes().into_iter());
                pair.lend(&case)?;
            }
        }
    }
    Ok(())
}

/// Pixel x has ID x + turn, so that each ID meets each pixel. An undefined window is told at its pixel.
fn every_id(pair: &mut Pair) -> Compared<()> {
    let mut case = noisy(32, 32, 9);
    case.switch_on(IDS_ON);
    case.overlay_row(&[3; 32]);
    case.table = vec![0; 512 + 64];
    case.put_table(0, &0x07FF_0100_u32.to_be_bytes());
    for id in 0..32 {
        case.window(id as usize, noise(id) & 0x600 | format(id % 6) | bank(id % 18));
    }
    for turn in 0..32 {
        for x in 0..32 {
            case.put_table(512 + 2 * x as usize, &entry(x, (x + turn) % 32).to_be_bytes());
        }
        assert_eq!(pair.lend(&case)?.number, 0, "all 32 windows are defined");
        for x in 0..32 {
            let mut undefined = case.clone();
            undefined.window(usize::from((x + turn) % 32), 0x800);
            pair.expect(&undefined, Wanted::Refused(9, x.into()))?;
        }
    }
    Ok(())
}

fn ids_off(pair: &mut Pair) -> Compared<()> {
    for length in [0, 1, 3, 4, 5, 512, 65_536, 65_537, 100_000] {
        let mut case = four_pixels(length);
        case.state.control[0] &= !IDS_ON;
        case.table.fill(0xFF);
        pair.expect(&case, of_ids(&[0; 4]))?;
        case.window(0, 0xC);
        pair.expect(&case, Wanted::Refused(9, 0))?;
    }
    Ok(())
}
