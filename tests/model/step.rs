//! One step of a session: the record at a place of some bytes, run in rooms of fixed lengths.

use super::chip::{Refusal, State};
use super::frames;
use super::line::Lent;
use super::listing::{Listed, Listing};
use super::records::{Record, Records};
use super::registers::STORE_WORDS;
use super::screen::Screen;
use super::session::OUTPUT_WORDS;
use super::windows::TABLE_BYTES;

/// The longest rows.
pub const NORMAL_BYTES: usize = 8192;
pub const OVERLAY_BYTES: usize = 2048;

/// The shortest room for a text.
pub const TEXT_BYTES: usize = 14_368;

/// A session: the chip, how many bytes of the lent table and rows are there, and how many records stood before the next.
#[repr(C)]
#[derive(Clone, Copy, PartialEq, Eq, Debug)]
pub struct Held {
    pub state: State,
    pub table: usize,
    pub normal: usize,
    pub overlay: usize,
    pub records: u32,
}

impl Held {
    pub const FRESH: Self = Self { state: State::FRESH, table: 0, normal: 0, overlay: 0, records: 0 };

    /// Whether it holds no more than there is room for.
    fn fits(&self) -> bool {
        self.table <= TABLE_BYTES && self.normal <= NORMAL_BYTES && self.overlay <= OVERLAY_BYTES
    }
}

/// All that a step is lent to change.
pub struct Rooms<'a> {
    pub store: &'a mut [u32],
    pub table: &'a mut [u8],
    pub normal: &'a mut [u8],
    pub overlay: &'a mut [u8],
    pub output: &'a mut [u32],
    pub text: &'a mut [u8],
}

impl Rooms<'_> {
    /// The lowest place at which a room has a wrong length.
    fn wrong_length(&self) -> Option<u32> {
        let right = [
            self.store.len() == STORE_WORDS,
            self.table.len() == TABLE_BYTES,
            self.normal.len() == NORMAL_BYTES,
            self.overlay.len() == OVERLAY_BYTES,
            self.output.len() == OUTPUT_WORDS,
            self.text.len() >= TEXT_BYTES,
        ];
        (1..).zip(right).find(|(_, right)| !right).map(|(place, _)| place)
    }
}

/// What a step comes to.
pub const REFUSED: u32 = 0;
pub const LISTED: u32 = 1;
pub const END: u32 = 2;
pub const MORE: u32 = 3;
pub const STOPPED: u32 = 4;

/// What a step answers.
#[repr(C)]
#[derive(Clone, Copy, PartialEq, Eq, Debug)]
pub struct Stepped {
    pub held: Held,
    pub next: usize,
    pub text: usize,
    pub number: u32,
    pub place: u32,
    pub status: u32,
}

/// Runs the record at a place of some bytes, with which the file ends or doesn't.
pub fn step(held: Held, bytes: &[u8], place: usize, last: bool, rooms: Rooms) -> Stepped {
    let nothing = |status, (number, at): Refusal| Stepped { held, next: place, text: 0, number, place: at, status };
    if !held.fits() {
        return nothing(REFUSED, (11, 0));
    }
    if let Some(wrong) = rooms.wrong_length() {
        return nothing(REFUSED, (5, wrong));
    }
    let rest = bytes.get(place..).unwrap_or_default();
    let mut records = Records::from(rest, held.records, held.table);
    let length = whole_length(rest);
    match records.next().expect("bytes in memory are read") {
        Err(fault) if fault.0 != 12 && length.is_none() && !last => nothing(MORE, (0, 0)),
        Err(fault) => Stepped { text: put(Listed::Refused(fault), rooms.text), ..nothing(STOPPED, fault) },
        Ok(record) => {
            let next = place + length.expect("a record that isn't refused is whole");
            run(held, record, rooms).map_or(Stepped { next, ..nothing(END, (0, 0)) }, |ran| Stepped { next, ..ran })
        }
    }
}

/// The bytes of the first record, where all of them are there.
fn whole_length(bytes: &[u8]) -> Option<usize> {
    match bytes {
        [_, high, low, body @ ..] => {
            let length = usize::from(u16::from_be_bytes([*high, *low]));
            (length <= body.len()).then_some(3 + length)
        }
        _ => None,
    }
}

/// Does what a record says, and lists it; of the end nothing.
fn run(mut held: Held, record: Record, rooms: Rooms) -> Option<Stepped> {
    let Rooms { store, table, normal, overlay, output, text } = rooms;
    let listed = match record {
        Record::End => return None,
        Record::Write { address, value } => held.state.write(store, address, value).map(|()| Listed::Ok),
        Record::Dots(count) => frames::dots(&mut held.state, store, count).map(|_| Listed::At(held.state.at)),
        Record::Table(bytes) => Ok(keep(table, &mut held.table, bytes)),
        Record::Normal(row) => Ok(replace(normal, &mut held.normal, row)),
        Record::Overlay(row) => Ok(replace(overlay, &mut held.overlay, row)),
        Record::Line(y) => {
            let Held { state, table: table_end, normal: normal_end, overlay: overlay_end, .. } = held;
            let (table, normal, overlay) = (&table[..table_end], &normal[..normal_end], &overlay[..overlay_end]);
            let pixels = state.line(y, Lent { store, table, normal, overlay }, output);
            pixels.map(|()| Listed::Line { y, pixels: &output[..Screen::new(&state.control).width as usize] })
        }
    };
    held.records += 1;
    let (number, place) = listed.as_ref().err().copied().unwrap_or((0, 0));
    let text = put(listed.unwrap_or_else(Listed::Refused), text);
    Some(Stepped { held, next: 0, text, number, place, status: LISTED })
}

/// Puts bytes behind those that a room holds.
fn keep<'a>(room: &mut [u8], held: &mut usize, bytes: &[u8]) -> Listed<'a> {
    room[*held..*held + bytes.len()].copy_from_slice(bytes);
    *held += bytes.len();
    Listed::Ok
}

/// Puts bytes for those that a room holds.
fn replace<'a>(room: &mut [u8], held: &mut usize, bytes: &[u8]) -> Listed<'a> {
    *held = 0;
    keep(room, held, bytes)
}

/// Puts the text of a record to the front of a room, and answers how long it is.
fn put(listed: Listed, room: &mut [u8]) -> usize {
    let whole = room.len();
    let mut left = room;
    Listing::new(&mut left).add(listed).expect("the room is long enough");
    whole - left.len()
}
