//! Refusals: each fault of a state, lengths, and which fault comes first.

use super::*;
use crate::pair::{Answer, Fill};
use crate::sequences::Damage;

pub const VECTORS: [Vector; 11] = [
    ("each stray control bit", stray_control_bits),
    ("positions above 4,095", positions_too_large),
    ("more than 64 waiting", too_many_waiting),
    ("each bad waiting write in each slot", bad_waiting_writes),
    ("garbage in slots that don't wait", garbage_in_dead_slots),
    ("wrong store lengths", wrong_lengths),
    ("11 before 5", state_before_length),
    ("5 before 1, 2, 3 and 4", length_before_the_rest),
    ("1 before all that the value could be refused for", address_before_value),
    ("2 before 3", read_only_before_stray),
    ("3 before 4", stray_before_full),
];

/// One call of each kind, each accepted where state and store are right.
const EACH_CALL: [Call; 6] = [
    Call::Write { address: 0x04_0000, value: 7 },
    Call::Write { address: 0x04, value: 0x0007_0007 },
    Call::Read { address: 0x24 },
    Call::Dot,
    Call::Dots { count: 0 },
    Call::Dots { count: 3 },
];

/// One call of each kind on a state, all refused by 11 or none refused.
fn try_each_call(pair: &mut Pair, state: State, refused: bool) -> Compared<()> {
    for call in EACH_CALL {
        pair.state = state;
        if refused {
            pair.expect(call, Answer::refused(11, 0))?;
        } else {
            assert_eq!(pair.lend(4963, call)?.number, 0, "{call} refused");
        }
    }
    Ok(())
}

fn stray_control_bits(pair: &mut Pair) -> Compared<()> {
    pair.begin(State::FRESH, Fill::Ones);
    for word in 0..9 {
        for bit in 0..32 {
            for mut state in [State::FRESH, busy_state()] {
                Damage::Control { word, bit }.put_into(&mut state);
                try_each_call(pair, state, control_kept(word) & 1 << bit == 0)?;
            }
        }
    }
    Ok(())
}

fn positions_too_large(pair: &mut Pair) -> Compared<()> {
    pair.begin(State::FRESH, Fill::Ones);
    for (p, refused) in [(4095, false), (4096, true), (4097, true), (8191, true), (65_536, true), (u32::MAX, true)] {
        try_each_call(pair, State { at: at(p, 0), ..State::FRESH }, refused)?;
        try_each_call(pair, State { at: at(0, p), ..State::FRESH }, refused)?;
        try_each_call(pair, State { at: at(p, p), ..busy_state() }, refused)?;
    }
    Ok(())
}

fn too_many_waiting(pair: &mut Pair) -> Compared<()> {
    pair.begin(State::FRESH, Fill::Ones);
    for (waiting, refused) in [(64, false), (65, true), (128, true), (256, true), (1 << 31, true), (u32::MAX, true)] {
        for mut state in [State::FRESH, waiting_state(64)] {
            Damage::Waiting(waiting).put_into(&mut state);
            try_each_call(pair, state, refused)?;
        }
    }
    Ok(())
}

/// Writes that may not wait.
fn bad_writes(slot: usize) -> [Damage; 6] {
    [
        Damage::Entry { slot, entry: 4608 },
        Damage::Entry { slot, entry: 8192 },
        Damage::Entry { slot, entry: u32::MAX },
        Damage::Colour { slot, colour: 1 << 24 },
        Damage::Colour { slot, colour: 1 << 31 },
        Damage::Colour { slot, colour: u32::MAX },
    ]
}

/// Behind the last waiting write it doesn't matter.
fn bad_waiting_writes(pair: &mut Pair) -> Compared<()> {
    pair.begin(State::FRESH, Fill::Ones);
    for slot in 0..64 {
        for damage in bad_writes(slot as usize) {
            for (waiting, refused) in [(slot, false), (slot + 1, true), (64, true)] {
                let mut state = waiting_state(waiting);
                damage.put_into(&mut state);
                try_each_call(pair, state, refused)?;
            }
        }
    }
    Ok(())
}

fn garbage_in_dead_slots(pair: &mut Pair) -> Compared<()> {
    for waiting in 0..=64 {
        let mut state = waiting_state(waiting);
        for slot in waiting as usize..64 {
            state.queue.slots[slot] = Waiting { entry: u32::MAX - slot as u32, colour: u32::MAX };
        }
        pair.begin(state, Fill::Ones);
        try_each_call(pair, state, false)?;
        pair.state = state;
        pair.expect(read(0x24), Answer::word(64 - waiting))?;
        pair.expect(write(0x10, fields(0, 1)), Answer::DONE)?;
        for _ in 0..waiting {
            pair.expect(Call::Dot, Answer::reported(false, false, true))?;
        }
        pair.expect(read(0x24), Answer::word(64))?;
        pair.expect(Call::Dots { count: 5 }, Answer::reported(false, false, true))?;
    }
    Ok(())
}

const WRONG_LENGTHS: [usize; 4] = [0, 1, 4962, 4964];

fn wrong_lengths(pair: &mut Pair) -> Compared<()> {
    for length in WRONG_LENGTHS {
        pair.begin(busy_state(), Fill::Ones);
        for call in EACH_CALL {
            pair.expect_of(length, call, Answer::refused(5, 1))?;
        }
        pair.expect_of(length, read(0x00), Answer::refused(5, 1))?;
        pair.expect_of(length, read(0x01_0000), Answer::refused(5, 1))?;
        pair.expect_of(length, write(COLOUR_MAP, 0), Answer::refused(5, 1))?;
    }
    Ok(())
}

fn state_before_length(pair: &mut Pair) -> Compared<()> {
    let mut state = busy_state();
    state.control[0] = 0x20;
    for length in WRONG_LENGTHS {
        pair.begin(state, Fill::Ones);
        for call in EACH_CALL.into_iter().chain([read(1), write(1, 0), write(0x24, 0), write(0, u32::MAX)]) {
            pair.expect_of(length, call, Answer::refused(11, 0))?;
        }
    }
    Ok(())
}

fn length_before_the_rest(pair: &mut Pair) -> Compared<()> {
    for length in WRONG_LENGTHS {
        pair.begin(waiting_state(64), Fill::Ones);
        for call in [
            read(0x2C),
            read(0x02_0001),
            write(0x2C, 0),
            write(0x02_0001, 0),
            write(0x24, 0),
            write(0x28, u32::MAX),
            write(0x00, 0x20),
            write(COLOUR_MAP, 1 << 24),
            write(COLOUR_MAP, 0),
        ] {
            pair.expect_of(length, call, Answer::refused(5, 1))?;
        }
    }
    Ok(())
}

fn address_before_value(pair: &mut Pair) -> Compared<()> {
    pair.begin(waiting_state(64), Fill::Ones);
    for address in [0x25, 0x2A, 0x2C, 0x02_0001, 0x02_4800, 0x02_FFFC] {
        pair.expect(write(address, u32::MAX), Answer::refused(1, address))?;
        pair.expect(write(address, 0), Answer::refused(1, address))?;
    }
    Ok(())
}

fn read_only_before_stray(pair: &mut Pair) -> Compared<()> {
    pair.begin(waiting_state(64), Fill::Ones);
    for address in [0x24, 0x28] {
        for value in [1, 0x80, 0x1000, 0xF000_F000, u32::MAX] {
            pair.expect(write(address, value), Answer::refused(2, address))?;
        }
    }
    Ok(())
}

fn stray_before_full(pair: &mut Pair) -> Compared<()> {
    pair.begin(waiting_state(64), Fill::Ones);
    for address in [COLOUR_MAP, 0x02_0014, 0x02_47FC] {
        pair.expect(write(address, 1 << 24), Answer::refused(3, address))?;
        pair.expect(write(address, u32::MAX), Answer::refused(3, address))?;
        pair.expect(write(address, 0x00FF_FFFF), Answer::refused(4, address))?;
    }
    Ok(())
}
