//! Registers: where they are, what they show and what they keep.

use super::*;
use crate::library;
use crate::pair::{Answer, Fill};

pub const VECTORS: [Vector; 11] = [
    ("a fresh state is all zero", fresh_is_zero),
    ("every register is read by its kept bits, bits 31..24 of the address ignored", every_register_is_read),
    ("every register is written whole, bits 31..24 of the address ignored", every_register_is_written),
    ("every address up to past the last block", every_address),
    ("no register before and past each block", outside_each_block),
    ("no register at unaligned addresses", unaligned),
    ("addresses at and around 0xFF......", top_addresses),
    ("each bit alone is kept or refused", each_bit_alone),
    ("word 9 shows the room and can't be written", word_nine),
    ("word 10 shows the position and can't be written", word_ten),
    ("unkept bits of a stored word are neither shown nor left by a write", unkept_bits),
];

fn fresh_is_zero(_: &mut Pair) -> Compared<()> {
    assert_eq!(library::fresh(), State::FRESH);
    Ok(())
}

fn every_register_is_read(pair: &mut Pair) -> Compared<()> {
    let state = busy_state();
    for (fill, top) in [(Fill::Ones, 0), (Fill::Zeros, 0)].into_iter().chain(TOPS.map(|top| (Fill::Numbers(5), top))) {
        pair.begin(state, fill);
        for word in 0..9 {
            pair.expect(read(top + 4 * word), Answer::word(state.control[word as usize]))?;
        }
        pair.expect(read(top + 0x24), Answer::word(61))?;
        pair.expect(read(top + 0x28), Answer::word(0x00BC_0321))?;
        for (from, first, words, kept) in BLOCKS {
            for word in 0..words {
                let shown = pair.stored((first + word) as usize) & kept;
                pair.expect(read(top + from + 4 * word), Answer::word(shown))?;
            }
        }
    }
    Ok(())
}

fn every_register_is_written(pair: &mut Pair) -> Compared<()> {
    pair.begin(State::FRESH, Fill::Ones);
    for top in TOPS {
        for word in 0..9 {
            let value = 0x0A5C_0C5A & control_kept(word);
            pair.expect(write(top + 4 * word as u32, value), Answer::DONE)?;
            assert_eq!(pair.state.control[word], value);
        }
        for (from, first, words, kept) in BLOCKS {
            for word in 0..words {
                pair.state.queue.waiting = 0;
                let value = (0x9E37_79B9 ^ top).wrapping_mul(first + word + 1) & kept;
                let before = pair.stored((first + word) as usize);
                pair.expect(write(top + from + 4 * word, value), Answer::DONE)?;
                if from == COLOUR_MAP {
                    assert_eq!(pair.state.queue.slots[0], Waiting { entry: word, colour: value });
                    assert_eq!(pair.stored((first + word) as usize), before);
                } else {
                    assert_eq!(pair.stored((first + word) as usize), value);
                }
            }
        }
    }
    Ok(())
}

fn every_address(pair: &mut Pair) -> Compared<()> {
    let state = busy_state();
    pair.begin(state, Fill::Numbers(7));
    for address in 0..0x04_2000 {
        let there = address % 4 == 0
            && (address <= 0x28
                || BLOCKS.iter().any(|&(from, _, words, _)| from <= address && address < from + 4 * words));
        let read_number = pair.lend(4963, read(address))?.number;
        assert_eq!(read_number, u32::from(!there), "read at {address:#x}");
        pair.state = state;
        let write_number = pair.lend(4963, write(address, 1))?.number;
        let read_only = address == 0x24 || address == 0x28;
        assert_eq!(write_number, if read_only { 2 } else { u32::from(!there) }, "write at {address:#x}");
        pair.state = state;
    }
    Ok(())
}

fn no_register(pair: &mut Pair, address: u32) -> Compared<()> {
    for top in TOPS {
        pair.expect(read(top + address), Answer::refused(1, address))?;
        pair.expect(write(top + address, 0), Answer::refused(1, address))?;
        pair.expect(write(top + address, u32::MAX), Answer::refused(1, address))?;
    }
    Ok(())
}

fn outside_each_block(pair: &mut Pair) -> Compared<()> {
    pair.begin(busy_state(), Fill::Ones);
    for past in [0x00_002C, 0x01_0080, 0x02_4800, 0x03_0400, 0x04_0100, 0x04_100C] {
        no_register(pair, past)?;
    }
    for before in [0xFF_FFFC, 0x00_FFFC, 0x01_FFFC, 0x02_FFFC, 0x03_FFFC, 0x04_0FFC] {
        no_register(pair, before)?;
    }
    Ok(())
}

fn unaligned(pair: &mut Pair) -> Compared<()> {
    pair.begin(busy_state(), Fill::Ones);
    let control = [0x00, 0x20, 0x24, 0x28];
    let blocks = BLOCKS.iter().flat_map(|&(from, _, words, _)| [from, from + 4 * words - 4]);
    for aligned in blocks.chain(control) {
        for off in 1..4 {
            no_register(pair, aligned + off)?;
        }
    }
    Ok(())
}

fn top_addresses(pair: &mut Pair) -> Compared<()> {
    pair.begin(busy_state(), Fill::Ones);
    pair.expect(read(0xFF00_0000), Answer::word(0x15))?;
    pair.expect(read(0x0100_0000), Answer::word(0x15))?;
    pair.expect(read(0xFF00_0024), Answer::word(61))?;
    pair.expect(write(0xFF00_0024, 0), Answer::refused(2, 0x24))?;
    pair.expect(read(0xFF04_1008), Answer::word(0x00FF_FFFF))?;
    pair.expect(write(0xFF04_1008, 0x0100_0000), Answer::refused(3, 0x04_1008))?;
    pair.expect(write(0xFF02_0014, 0x0010_2030), Answer::DONE)?;
    assert_eq!(pair.state.queue.slots[3], Waiting { entry: 5, colour: 0x0010_2030 });
    for (address, place) in [
        (0xFEFF_FFFC, 0xFF_FFFC),
        (0xFEFF_FFFF, 0xFF_FFFF),
        (0xFF00_0001, 0x00_0001),
        (0xFF00_002C, 0x00_002C),
        (0xFF02_0015, 0x02_0015),
        (0xFF04_100C, 0x04_100C),
        (0xFFFF_FFFC, 0xFF_FFFC),
        (0xFFFF_FFFF, 0xFF_FFFF),
    ] {
        pair.expect(read(address), Answer::refused(1, place))?;
        pair.expect(write(address, 0), Answer::refused(1, place))?;
    }
    Ok(())
}

fn each_bit_alone(pair: &mut Pair) -> Compared<()> {
    pair.begin(busy_state(), Fill::Ones);
    let control = (0..9).map(|word| (4 * word as u32, control_kept(word)));
    let blocks = BLOCKS.iter().flat_map(|&(from, _, words, kept)| [(from, kept), (from + 4 * words - 4, kept)]);
    for (address, kept) in control.chain(blocks) {
        for value in (0..32).map(|bit| 1 << bit).chain([0, kept]) {
            pair.state = busy_state();
            let wanted = if value & !kept == 0 { Answer::DONE } else { Answer::refused(3, address) };
            pair.expect(write(address, value), wanted)?;
        }
    }
    Ok(())
}

fn word_nine(pair: &mut Pair) -> Compared<()> {
    for waiting in 0..=64 {
        pair.begin(waiting_state(waiting), Fill::Ones);
        for top in TOPS {
            pair.expect(read(top + 0x24), Answer::word(64 - waiting))?;
            for value in [0, 64, u32::MAX] {
                pair.expect(write(top + 0x24, value), Answer::refused(2, 0x24))?;
            }
        }
    }
    Ok(())
}

fn word_ten(pair: &mut Pair) -> Compared<()> {
    for (x, y) in [(0, 0), (1, 0), (0, 1), (2, 3), (4095, 0), (0, 4095), (4095, 4095), (0x123, 0x456)] {
        pair.begin(State { at: at(x, y), ..State::FRESH }, Fill::Ones);
        for top in TOPS {
            pair.expect(read(top + 0x28), Answer::word(x + 65_536 * y))?;
            for value in [0, x + 65_536 * y, u32::MAX] {
                pair.expect(write(top + 0x28, value), Answer::refused(2, 0x28))?;
            }
        }
    }
    Ok(())
}

fn unkept_bits(pair: &mut Pair) -> Compared<()> {
    for fill in [Fill::Ones, Fill::Numbers(11)] {
        let mut state = State::FRESH;
        state.control[4] = fields(0, 1);
        pair.begin(state, fill);
        for (from, first, words, kept) in BLOCKS {
            for word in [0, words / 2, words - 1] {
                let (address, index) = (from + 4 * word, (first + word) as usize);
                pair.expect(read(address), Answer::word(pair.stored(index) & kept))?;
                pair.expect(write(address, 0x0000_0102), Answer::DONE)?;
                pair.expect(Call::Dot, Answer::reported(false, false, true))?;
                assert_eq!(pair.stored(index), 0x0000_0102, "store word {index}");
                pair.expect(read(address), Answer::word(0x0000_0102))?;
            }
        }
    }
    Ok(())
}
