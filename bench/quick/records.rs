//! The record at the front of some bytes.

use crate::model::records::{MOST_DOTS, RECORDS};
use crate::model::step::{NORMAL_BYTES, OVERLAY_BYTES};
use crate::model::windows::TABLE_BYTES;

/// A record that isn't refused.
pub enum Record<'a> {
    End,
    Write { address: u32, value: u32 },
    Dots(u32),
    Table(&'a [u8]),
    Normal(&'a [u8]),
    Overlay(&'a [u8]),
    Line(u32),
}

/// The record at the front and how long it is, or the number of its fault: 12, 14 or 13. It is the record of a number,
/// after so many bytes of the ID table.
pub fn first(bytes: &[u8], number: u32, table: usize) -> Result<(Record<'_>, usize), u32> {
    match bytes {
        [tag, ..] if *tag > 6 => return Err(12),
        [_, _, _, ..] => {}
        [_, ..] if number >= RECORDS => return Err(14),
        _ => return Err(13),
    }
    let (tag, length, rest) = (bytes[0], usize::from(u16::from_be_bytes([bytes[1], bytes[2]])), &bytes[3..]);
    if !allowed(tag, length) {
        return Err(12);
    }
    let body = rest.get(..length);
    if tag == 2 && body.is_some_and(|body| word(body, 0) > MOST_DOTS) {
        return Err(12);
    }
    if number >= RECORDS || tag == 3 && table + length > TABLE_BYTES {
        return Err(14);
    }
    let body = body.ok_or(13_u32)?;
    let record = match tag {
        0 => Record::End,
        1 => Record::Write { address: word(body, 0), value: word(body, 4) },
        2 => Record::Dots(word(body, 0)),
        3 => Record::Table(body),
        4 => Record::Normal(body),
        5 => Record::Overlay(body),
        _ => Record::Line(u32::from(u16::from_be_bytes([body[0], body[1]]))),
    };
    Ok((record, 3 + length))
}

/// Whether all bytes of the first record are there.
pub fn whole(bytes: &[u8]) -> bool {
    match bytes {
        [_, high, low, body @ ..] => usize::from(u16::from_be_bytes([*high, *low])) <= body.len(),
        _ => false,
    }
}

/// Whether a tag has bodies so long.
fn allowed(tag: u8, length: usize) -> bool {
    match tag {
        0 => length == 0,
        1 => length == 8,
        2 => length == 4,
        3 => true,
        4 => length <= NORMAL_BYTES,
        5 => length <= OVERLAY_BYTES,
        _ => length == 2,
    }
}

/// The word at a place in a body.
fn word(body: &[u8], at: usize) -> u32 {
    u32::from_be_bytes([body[at], body[at + 1], body[at + 2], body[at + 3]])
}
