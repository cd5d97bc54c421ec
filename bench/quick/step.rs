//! One step of a session.

use super::chip;
use super::dots;
use super::line;
use super::records::{self, Record};
use super::text;
use crate::model::chip::Refusal;
use crate::model::line::Lent;
use crate::model::registers::STORE_WORDS;
use crate::model::screen::Screen;
use crate::model::session::OUTPUT_WORDS;
use crate::model::step::{
    Held, Rooms, Stepped, END, LISTED, MORE, NORMAL_BYTES, OVERLAY_BYTES, REFUSED, STOPPED, TEXT_BYTES,
};
use crate::model::windows::TABLE_BYTES;

/// Runs the record at a place of some bytes, with which the file ends or doesn't.
pub fn step(mut held: Held, bytes: &[u8], place: usize, last: bool, mut rooms: Rooms) -> Stepped {
    let nothing = |held, status, (number, at)| Stepped { held, next: place, text: 0, number, place: at, status };
    if let Some(refusal) = refused(&held, &rooms) {
        return nothing(held, REFUSED, refusal);
    }
    let rest = bytes.get(place..).unwrap_or_default();
    match records::first(rest, held.records, held.table) {
        Err(number) if number != 12 && !last && !records::whole(rest) => nothing(held, MORE, (0, 0)),
        Err(number) => {
            let fault = (number, held.records);
            Stepped { text: text::refused(rooms.text, fault), ..nothing(held, STOPPED, fault) }
        }
        Ok((Record::End, length)) => Stepped { next: place + length, ..nothing(held, END, (0, 0)) },
        Ok((record, length)) => {
            let (text, (number, at)) = checked(&mut held, record, &mut rooms);
            Stepped { held, next: place + length, text, number, place: at, status: LISTED }
        }
    }
}

/// Refuses a session that holds more than there is room for, and then rooms of wrong lengths.
fn refused(held: &Held, rooms: &Rooms) -> Option<Refusal> {
    if held.table > TABLE_BYTES || held.normal > NORMAL_BYTES || held.overlay > OVERLAY_BYTES {
        return Some((11, 0));
    }
    let right = [
        rooms.store.len() == STORE_WORDS,
        rooms.table.len() == TABLE_BYTES,
        rooms.normal.len() == NORMAL_BYTES,
        rooms.overlay.len() == OVERLAY_BYTES,
        rooms.output.len() == OUTPUT_WORDS,
        rooms.text.len() >= TEXT_BYTES,
    ];
    (1..).zip(right).find(|(_, right)| !right).map(|(place, _)| (5, place))
}

/// Does what a record says on any state.
fn checked(held: &mut Held, record: Record, rooms: &mut Rooms) -> (usize, Refusal) {
    if matches!(record, Record::Write { .. } | Record::Dots(_)) && !held.state.good() {
        held.records += 1;
        return (text::refused(rooms.text, (11, 0)), (11, 0));
    }
    run(held, record, rooms)
}

/// Does what a record says, but for the end, on a state that keeps its rule. Answers how long its text is, and the
/// refusal, which is of zeros where there is none.
pub fn run(held: &mut Held, record: Record, rooms: &mut Rooms) -> (usize, Refusal) {
    held.records += 1;
    let Rooms { store, table, normal, overlay, output, text } = rooms;
    let listed = match record {
        Record::End => Ok(0),
        Record::Write { address, value } => {
            chip::write(&mut held.state, store, address, value).map(|()| text::ok(text))
        }
        Record::Dots(count) => {
            dots::dots(&mut held.state, store, count);
            Ok(text::at(text, held.state.at))
        }
        Record::Table(bytes) => {
            table[held.table..held.table + bytes.len()].copy_from_slice(bytes);
            held.table += bytes.len();
            Ok(text::ok(text))
        }
        Record::Normal(row) => {
            normal[..row.len()].copy_from_slice(row);
            held.normal = row.len();
            Ok(text::ok(text))
        }
        Record::Overlay(row) => {
            overlay[..row.len()].copy_from_slice(row);
            held.overlay = row.len();
            Ok(text::ok(text))
        }
        Record::Line(y) => {
            let (table, normal) = (&table[..held.table], &normal[..held.normal]);
            let lent = Lent { store, table, normal, overlay: &overlay[..held.overlay] };
            line::line(&held.state, y, lent, output).map(|()| {
                let width = Screen::new(&held.state.control).width as usize;
                text::line(text, y, &output[..width])
            })
        }
    };
    match listed {
        Ok(length) => (length, (0, 0)),
        Err(refusal) => (text::refused(text, refusal), refusal),
    }
}
