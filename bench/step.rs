//! Sessions stepped through C's interface, from the bytes of a file to its text.

use std::hint::black_box;

use crate::library;
use crate::measure::{timed, Row, Unit, Works, MILLISECONDS, NANOSECONDS};
use crate::model::registers::STORE_WORDS;
use crate::model::session::OUTPUT_WORDS;
use crate::model::step::{Held, Rooms, Stepped, LISTED, NORMAL_BYTES, OVERLAY_BYTES, TEXT_BYTES};
use crate::model::windows::TABLE_BYTES;
use crate::plain;
use crate::recordings;

/// The steps of the session of short records.
const STEPS: u32 = 1_000_000;

/// A time of that session, as that of each step.
const A_STEP: Unit = ("ns/step", STEPS as f64);

/// The bytes of the session of rows alone.
const ROWS_BYTES: usize = 20_000_000;

/// Single steps that draw and list a line, and whole sessions.
pub fn rows() -> Vec<Row> {
    vec![
        text("text of a line: step of 2,048 pixels, index of 8 bits", || recordings::one_line(0x200, 16)),
        text("text of a line: step of 2,048 pixels, 8-8-8", || recordings::one_line(0x20A, 32)),
        session("step of a session of writes, dots and short rows", A_STEP, recordings::records),
        session("session in memory, 2,000 lines, a row for each", MILLISECONDS, recordings::lines),
        session("session in memory, 2,000 lines, one row for all", MILLISECONDS, recordings::same_row),
        session("session in memory, 20 MB of rows", MILLISECONDS, || recordings::rows_alone(ROWS_BYTES)),
    ]
}

/// A whole session, of which library and plain Rust must list the same.
fn session(what: &str, unit: Unit, file: fn() -> Vec<u8>) -> Row {
    Row::new(
        what.to_string(),
        unit,
        move || Session::new(file()),
        |session| session.listing(of_library) == session.listing(of_plain),
        |session| Works {
            proved: timed(&session, |session| session.run(of_library)),
            plain: timed(&session, |session| session.run(of_plain)),
        },
    )
}

/// The last step of a session that doesn't end, of which library and plain Rust must list the same.
fn text(what: &str, file: fn() -> Vec<u8>) -> Row {
    Row::new(
        what.to_string(),
        NANOSECONDS,
        move || Session::new(file()).before_last(),
        |session| session.listing(of_library) == session.listing(of_plain),
        |session| Works {
            proved: timed(&session, |session| session.again(of_library)),
            plain: timed(&session, |session| session.again(of_plain)),
        },
    )
}

/// A step of either.
type Step = fn(Held, &mut [u8], usize, Rooms) -> Stepped;

/// A step of the library, with which the file ends.
fn of_library(held: Held, bytes: &mut [u8], place: usize, rooms: Rooms) -> Stepped {
    library::step(held, bytes, place, 1, rooms)
}

/// A step of plain Rust, alike.
fn of_plain(held: Held, bytes: &mut [u8], place: usize, rooms: Rooms) -> Stepped {
    plain::step_in(held, bytes, place, 1, rooms)
}

/// A file, where its session stands, and the rooms that each step is lent.
#[derive(Clone)]
struct Session {
    bytes: Vec<u8>,
    held: Held,
    place: usize,
    store: Vec<u32>,
    table: Vec<u8>,
    normal: Vec<u8>,
    overlay: Vec<u8>,
    output: Vec<u32>,
    text: Vec<u8>,
}

impl Session {
    /// The start of a file's session.
    fn new(bytes: Vec<u8>) -> Self {
        Self {
            bytes,
            held: Held::FRESH,
            place: 0,
            store: vec![0; STORE_WORDS],
            table: vec![0; TABLE_BYTES],
            normal: vec![0; NORMAL_BYTES],
            overlay: vec![0; OVERLAY_BYTES],
            output: vec![0; OUTPUT_WORDS],
            text: vec![0; TEXT_BYTES],
        }
    }

    /// One step from where the session stands, which stays there.
    fn step(&mut self, step: Step) -> Stepped {
        let rooms = Rooms {
            store: &mut self.store,
            table: &mut self.table,
            normal: &mut self.normal,
            overlay: &mut self.overlay,
            output: &mut self.output,
            text: &mut self.text,
        };
        step(self.held, &mut self.bytes, self.place, rooms)
    }

    /// Steps on up to the end, and shows each text.
    fn steps(&mut self, step: Step, mut show: impl FnMut(&[u8])) {
        loop {
            let stepped = self.step(step);
            show(&self.text[..stepped.text]);
            if stepped.status != LISTED {
                return;
            }
            (self.held, self.place) = (stepped.held, stepped.next);
        }
    }

    /// The whole session, from its start on.
    fn run(&mut self, step: Step) -> u32 {
        self.store.fill(0);
        (self.held, self.place) = (Held::FRESH, 0);
        self.steps(step, |text| {
            black_box(text);
        });
        self.held.records
    }

    /// One step, again and again the same.
    fn again(&mut self, step: Step) -> u32 {
        black_box(self.step(step)).number
    }

    /// All texts from where the session stands.
    fn listing(&self, step: Step) -> Vec<u8> {
        let mut listing = Vec::new();
        self.clone().steps(step, |text| listing.extend_from_slice(text));
        listing
    }

    /// The session before the last record that a file without an end has.
    fn before_last(mut self) -> Self {
        loop {
            let mut next = self.clone();
            let stepped = next.step(of_plain);
            if stepped.next == self.bytes.len() {
                return self;
            }
            (next.held, next.place) = (stepped.held, stepped.next);
            self = next;
        }
    }
}
