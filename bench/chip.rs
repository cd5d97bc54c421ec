//! Dots, writes and reads.

use crate::calls::{Calls, Chip, Library, Plain};
use crate::measure::{timed, Row, Unit, Works, NANOSECONDS};
use crate::model::chip::State;
use crate::model::queue::{Queue, Waiting};

/// The longest run that a session file has.
const LONGEST_RUN: u32 = 16_777_216;

/// The run by which a dot of a run is measured.
const RUN: u32 = 4_194_304;

/// A time of such a run, as that of each of its dots.
const A_DOT: Unit = ("ns/dot", RUN as f64);

/// The dots of a frame at the timings of 1280x1024.
const FRAME: u32 = 1688 * 1066;

/// Every row, of each kind of call.
pub fn rows() -> impl Iterator<Item = Row> {
    let fresh = State::FRESH;
    let timed = at_1280x1024(fresh);
    let waiting = with_full_queue(timed);
    [dots(fresh, timed, waiting), writes(timed), reads(timed, waiting)].into_iter().flatten()
}

/// Single dots and runs of them, with and without waiting writes.
fn dots(fresh: State, timed: State, waiting: State) -> Vec<Row> {
    let waiting_1x1 = with_full_queue(fresh);
    vec![
        row::<Dot>("dot, nothing waiting", NANOSECONDS, timed),
        row::<Dot>("dot, 64 waiting, never blanked", NANOSECONDS, never_blanked(waiting)),
        row::<Dots<LONGEST_RUN>>("run of 16,777,216 dots, nothing waiting", NANOSECONDS, timed),
        row::<Dots<RUN>>("dot of a run, 64 waiting, never blanked", A_DOT, never_blanked(waiting)),
        row::<Dots<RUN>>("dot of a run, 64 waiting, never blanked, total 1x1", A_DOT, waiting_1x1),
        row::<Dots<RUN>>("dot of a run, 64 waiting, blanked past the total", A_DOT, blanked_past(waiting)),
        row::<Dots<RUN>>("dot of a run, 64 waiting, blanked past total 1x1", A_DOT, blanked_past(waiting_1x1)),
        row::<Frame>("frame of 1280x1024, 64 waiting, which drain", NANOSECONDS, timed),
    ]
}

/// Writes that act at once, one that is refused and one that waits.
fn writes(timed: State) -> Vec<Row> {
    vec![
        row::<Write<0x20, 0x0010_0020>>("write of a control word", NANOSECONDS, timed),
        row::<Write<0x03_0014, 0x0010_2030>>("write of a gamma word", NANOSECONDS, timed),
        row::<Write<0x05_0000, 0>>("write that is refused: no register there", NANOSECONDS, timed),
        row::<ColourWrite>("colour write that waits, and the dot that applies it", NANOSECONDS, always_blanked(timed)),
    ]
}

/// A read of each kind.
fn reads(timed: State, waiting: State) -> Vec<Row> {
    vec![
        row::<Read<0x20>>("read of a control word", NANOSECONDS, timed),
        row::<Read<0x02_0014>>("read of a colour word", NANOSECONDS, timed),
        row::<Read<0x24>>("read of word 9, the room", NANOSECONDS, timed),
        row::<Read<0x24>>("read of word 9, 64 waiting", NANOSECONDS, waiting),
        row::<Read<0x28>>("read of word 10, the position", NANOSECONDS, timed),
    ]
}

/// Some work from a state on. Library and plain Rust must answer and leave the same.
fn row<W: Work + 'static>(what: &str, unit: Unit, start: State) -> Row {
    let outcome = |chip: &Chip, work: fn(&mut Chip) -> u32| {
        let mut chip = chip.clone();
        (work(&mut chip), chip)
    };
    Row::new(
        what.to_string(),
        unit,
        move || Chip::new(start),
        move |chip| outcome(chip, W::on::<Library>) == outcome(chip, W::on::<Plain>),
        |chip| Works { proved: timed(&chip, W::on::<Library>), plain: timed(&chip, W::on::<Plain>) },
    )
}

/// What a row measures; the answer is that of the last call.
trait Work {
    fn on<C: Calls>(chip: &mut Chip) -> u32;
}

/// One dot.
struct Dot;

impl Work for Dot {
    fn on<C: Calls>(chip: &mut Chip) -> u32 {
        C::dot(chip)
    }
}

/// So many dots.
struct Dots<const COUNT: u32>;

impl<const COUNT: u32> Work for Dots<COUNT> {
    fn on<C: Calls>(chip: &mut Chip) -> u32 {
        C::dots(chip, COUNT)
    }
}

/// The dots of a frame, from a full queue on.
struct Frame;

impl Work for Frame {
    fn on<C: Calls>(chip: &mut Chip) -> u32 {
        chip.state.queue = full_queue();
        C::dots(chip, FRAME)
    }
}

/// One register write.
struct Write<const ADDRESS: u32, const VALUE: u32>;

impl<const ADDRESS: u32, const VALUE: u32> Work for Write<ADDRESS, VALUE> {
    fn on<C: Calls>(chip: &mut Chip) -> u32 {
        C::write(chip, ADDRESS, VALUE)
    }
}

/// A colour write, and a dot.
struct ColourWrite;

impl Work for ColourWrite {
    fn on<C: Calls>(chip: &mut Chip) -> u32 {
        C::write(chip, 0x02_0014, 0x0010_2030);
        C::dot(chip)
    }
}

/// One register read.
struct Read<const ADDRESS: u32>;

impl<const ADDRESS: u32> Work for Read<ADDRESS> {
    fn on<C: Calls>(chip: &mut Chip) -> u32 {
        C::read(chip, ADDRESS)
    }
}

/// A control word of two fields.
fn fields(low: u32, high: u32) -> u32 {
    low | high << 16
}

/// Total 1688 by 1066, of which 1280 by 1024 are not blanked.
fn at_1280x1024(mut state: State) -> State {
    state.control[1] = fields(1687, 1065);
    state.control[2] = fields(1328, 1440);
    state.control[3] = fields(1025, 1028);
    state.control[4] = fields(1280, 0);
    state.control[5] = fields(1024, 0);
    state
}

/// Both blank windows are empty.
fn never_blanked(mut state: State) -> State {
    state.control[4..6].fill(0);
    state
}

/// Both blank windows hold somewhere, but nowhere that the beam comes to.
fn blanked_past(mut state: State) -> State {
    state.control[4..6].fill(fields(2000, 2001));
    state
}

/// One dot in all, and it is blanked.
fn always_blanked(mut state: State) -> State {
    state.control[1..6].fill(0);
    state.control[4] = fields(0, 1);
    state
}

/// The state with as many writes waiting as can.
fn with_full_queue(mut state: State) -> State {
    state.queue = full_queue();
    state
}

/// 64 writes that wait, to as many entries.
fn full_queue() -> Queue {
    Queue { waiting: 64, slots: std::array::from_fn(|slot| Waiting { entry: slot as u32, colour: 0x0010_2030 }) }
}
