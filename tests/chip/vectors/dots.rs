//! Dots, and the queue that they drain.

use super::*;
use crate::pair::{Answer, Fill};

pub const VECTORS: [Vector; 12] = [
    ("a waiting write isn't shown", waiting_is_not_shown),
    ("64 are accepted and the 65th is refused, other writes go on", full_queue),
    ("one entry waits twice", one_entry_twice),
    ("each blanked dot applies one write, in order", one_write_each_blanked_dot),
    ("at 1280 by 1024 the first 64 blanked dots apply what waits", wide_screen),
    ("slots move up, dead ones too", slots_move_up),
    ("a position beyond a shrunk total", beyond_a_shrunk_total),
    ("equal on and off never hold", equal_on_and_off),
    ("on 5, off 2 of a total of 8", around_the_end),
    ("blank is horizontal or vertical, sync either way", each_window_alone),
    ("a run of no dots", no_dots),
    ("a run is the dots it counts", runs_are_their_dots),
];

fn waiting_is_not_shown(pair: &mut Pair) -> Compared<()> {
    pair.begin(State::FRESH, Fill::Ones);
    pair.expect(write(0x02_0014, 0x0010_2030), Answer::DONE)?;
    pair.expect(read(0x02_0014), Answer::word(0x00FF_FFFF))?;
    pair.expect(Call::Dot, Answer::reported(false, false, false))?;
    pair.expect(read(0x02_0014), Answer::word(0x00FF_FFFF))?;
    pair.expect(write(0x10, fields(0, 1)), Answer::DONE)?;
    pair.expect(read(0x02_0014), Answer::word(0x00FF_FFFF))?;
    pair.expect(Call::Dot, Answer::reported(false, false, true))?;
    pair.expect(read(0x02_0014), Answer::word(0x0010_2030))
}

fn full_queue(pair: &mut Pair) -> Compared<()> {
    pair.begin(State::FRESH, Fill::Zeros);
    for entry in 0..64 {
        pair.expect(write(COLOUR_MAP + 4 * entry, 0xA0_0000 + entry), Answer::DONE)?;
        assert_eq!(pair.state.queue.waiting, entry + 1);
        assert_eq!(pair.state.queue.slots[entry as usize], Waiting { entry, colour: 0xA0_0000 + entry });
    }
    pair.expect(write(0x02_0100, 1), Answer::refused(4, 0x02_0100))?;
    pair.expect(write(0xFF02_47FC, 0), Answer::refused(4, 0x02_47FC))?;
    for address in [0x00, 0x20, 0x01_0000, 0x03_0000, 0x04_0000, 0x04_1000] {
        pair.expect(write(address, 3), Answer::DONE)?;
        pair.expect(read(address), Answer::word(3))?;
    }
    pair.expect(write(0x02_0000, 1), Answer::refused(4, 0x02_0000))?;
    pair.expect(write(0x10, fields(0, 1)), Answer::DONE)?;
    pair.expect(Call::Dot, Answer::reported(false, false, true))?;
    pair.expect(read(0x02_0000), Answer::word(0xA0_0000))?;
    pair.expect(write(0x02_0100, 1), Answer::DONE)?;
    pair.expect(write(0x02_0100, 1), Answer::refused(4, 0x02_0100))
}

fn one_entry_twice(pair: &mut Pair) -> Compared<()> {
    pair.begin(State::FRESH, Fill::Zeros);
    pair.expect(write(0x10, fields(0, 1)), Answer::DONE)?;
    for value in [0x111111, 0x222222, 0x111111] {
        pair.expect(write(0x02_001C, value), Answer::DONE)?;
    }
    for value in [0x111111, 0x222222, 0x111111] {
        pair.expect(Call::Dot, Answer::reported(false, false, true))?;
        pair.expect(read(0x02_001C), Answer::word(value))?;
    }
    pair.expect(read(0x24), Answer::word(64))
}

/// Of four dots in a line the first two are blanked.
fn one_write_each_blanked_dot(pair: &mut Pair) -> Compared<()> {
    let mut state = waiting_state(64);
    state.control[1] = fields(3, 0);
    state.control[4] = fields(0, 2);
    pair.begin(state, Fill::Zeros);
    let mut applied = 0;
    for dot in 0..128 {
        let blank = dot % 4 < 2;
        pair.expect(Call::Dot, Answer::reported(false, false, blank))?;
        applied += u32::from(blank);
        pair.expect(read(0x24), Answer::word(applied))?;
        for number in [applied.saturating_sub(1), applied.min(63)] {
            let wanted = if number < applied { 0xFF_FF00 + number } else { 0 };
            pair.expect(read(COLOUR_MAP + 4 * (4607 - number)), Answer::word(wanted))?;
        }
    }
    assert_eq!((applied, pair.state.queue), (64, State::FRESH.queue));
    Ok(())
}

/// 1,688 dots by 1,066 lines, of which 1,280 by 1,024 are not blanked.
fn wide_screen(pair: &mut Pair) -> Compared<()> {
    let mut state = waiting_state(64);
    state.control[1] = fields(1687, 1065);
    state.control[4] = fields(1280, 0);
    state.control[5] = fields(1024, 1066);
    for (from, clear) in [(at(0, 0), 1280), (at(1279, 7), 1), (at(1280, 7), 0), (at(0, 1024), 0), (at(1687, 1064), 0)] {
        for applied in 0..=64 {
            pair.begin(State { at: from, ..state }, Fill::Zeros);
            pair.lend(4963, Call::Dots { count: clear + applied })?;
            assert_eq!(pair.state.queue.waiting, 64 - applied, "{applied} dots past the clear ones from {from:?}");
        }
        pair.begin(State { at: from, ..state }, Fill::Zeros);
        pair.lend(4963, Call::Dots { count: 1688 * 1066 })?;
        assert_eq!(pair.state, State { at: from, queue: State::FRESH.queue, ..state }, "a frame from {from:?}");
    }
    Ok(())
}

fn slots_move_up(pair: &mut Pair) -> Compared<()> {
    let mut state = waiting_state(2);
    state.control[4] = fields(0, 1);
    for slot in 2..64 {
        state.queue.slots[slot] = Waiting { entry: 5000 + slot as u32, colour: u32::MAX - slot as u32 };
    }
    pair.begin(state, Fill::Zeros);
    pair.expect(Call::Dot, Answer::reported(false, false, true))?;
    assert_eq!(pair.state.queue.waiting, 1);
    assert_eq!(pair.state.queue.slots[..63], state.queue.slots[1..]);
    assert_eq!(pair.state.queue.slots[63], Waiting { entry: 0, colour: 0 });
    pair.expect(write(0x02_0000, 9), Answer::DONE)?;
    assert_eq!(pair.state.queue.slots[1], Waiting { entry: 0, colour: 9 });
    assert_eq!(pair.state.queue.slots[2..63], state.queue.slots[3..]);
    pair.expect(Call::Dots { count: 5 }, Answer::reported(false, false, true))?;
    assert_eq!(pair.state.queue.waiting, 0);
    assert_eq!(pair.state.queue.slots[..61], state.queue.slots[3..]);
    Ok(())
}

fn beyond_a_shrunk_total(pair: &mut Pair) -> Compared<()> {
    for (from, to) in [
        (at(10, 10), at(0, 0)),
        (at(10, 2), at(0, 3)),
        (at(10, 3), at(0, 0)),
        (at(2, 10), at(3, 10)),
        (at(3, 10), at(0, 0)),
        (at(4, 0), at(0, 1)),
        (at(4095, 4095), at(0, 0)),
        (at(4095, 1), at(0, 2)),
        (at(1, 4095), at(2, 4095)),
    ] {
        for call in [Call::Dot, Call::Dots { count: 1 }] {
            pair.begin(State { at: from, ..State::FRESH }, Fill::Zeros);
            pair.expect(write(0x04, fields(3, 3)), Answer::DONE)?;
            pair.expect(call, Answer::reported(false, false, false))?;
            assert_eq!(pair.state.at, to, "from {from:?}");
        }
    }
    Ok(())
}

fn equal_on_and_off(pair: &mut Pair) -> Compared<()> {
    for edge in [0, 1, 3, 2047, 2048, 4095] {
        for p in [0, edge, (edge + 1) % 4096, 4095] {
            let mut state = waiting_state(1);
            state.control[1] = fields(4095, 4095);
            state.control[2..6].fill(fields(edge, edge));
            state.at = at(p, p);
            pair.begin(state, Fill::Zeros);
            pair.expect(Call::Dot, Answer::reported(false, false, false))?;
            pair.expect(Call::Dots { count: 5 }, Answer::reported(false, false, false))?;
            pair.expect(read(0x24), Answer::word(63))?;
        }
    }
    Ok(())
}

fn around_the_end(pair: &mut Pair) -> Compared<()> {
    let mut state = State::FRESH;
    state.control[1] = fields(7, 0);
    state.control[2] = fields(5, 2);
    pair.begin(state, Fill::Zeros);
    for x in 0..16 {
        pair.expect(Call::Dot, Answer::reported([0, 1, 5, 6, 7].contains(&(x % 8)), false, false))?;
    }
    state.control[4] = fields(5, 2);
    pair.begin(state, Fill::Zeros);
    for x in 0..16 {
        let active = [0, 1, 5, 6, 7].contains(&(x % 8));
        pair.expect(Call::Dots { count: 1 }, Answer::reported(active, false, active))?;
    }
    Ok(())
}

/// Words 2 to 5 in turn hold a window at 2 of the dots, or of the lines, of a frame of 4 by 4.
fn each_window_alone(pair: &mut Pair) -> Compared<()> {
    for word in 2..6 {
        let mut state = waiting_state(64);
        state.control[1] = fields(3, 3);
        state.control[word] = fields(1, 3);
        pair.begin(state, Fill::Zeros);
        for (x, y) in (0..32).map(|dot| (dot % 4, dot / 4 % 4)) {
            assert_eq!(pair.state.at, at(x, y));
            let across = x == 1 || x == 2;
            let down = y == 1 || y == 2;
            let holds = if word % 2 == 0 { across } else { down };
            pair.expect(Call::Dot, Answer::reported(word == 2 && holds, word == 3 && holds, word >= 4 && holds))?;
        }
        pair.expect(read(0x24), Answer::word(if word >= 4 { 16 } else { 0 }))?;
    }
    Ok(())
}

fn no_dots(pair: &mut Pair) -> Compared<()> {
    let mut state = waiting_state(64);
    state.control[2..6].fill(fields(0, 1));
    pair.begin(state, Fill::Ones);
    pair.expect(Call::Dots { count: 0 }, Answer::DONE)?;
    assert_eq!(pair.state, state);
    pair.expect_of(4962, Call::Dots { count: 0 }, Answer::refused(5, 1))?;
    pair.state.control[0] = 0x20;
    pair.expect(Call::Dots { count: 0 }, Answer::refused(11, 0))
}

/// From each position of a small frame and around it, with few and with many waiting.
fn runs_are_their_dots(pair: &mut Pair) -> Compared<()> {
    for (x, y) in (0..7).flat_map(|x| (0..6).map(move |y| (x, y))) {
        for waiting in [0, 1, 7, 64] {
            let mut state = waiting_state(waiting);
            state.control = [0, fields(4, 3), fields(2, 4), fields(3, 1), fields(4, 1), fields(2, 3), 0, 0, 0];
            state.at = at(x, y);
            pair.begin(state, Fill::Zeros);
            let mut dot_by_dot = vec![(pair.state, Answer::DONE)];
            for _ in 0..60 {
                let answer = pair.lend(4963, Call::Dot)?;
                dot_by_dot.push((pair.state, answer));
            }
            for (count, (after, answer)) in (0..).zip(dot_by_dot) {
                pair.state = state;
                pair.expect(Call::Dots { count }, answer)?;
                assert_eq!(pair.state, after, "{count} dots");
            }
        }
    }
    Ok(())
}
