//! Records as bytes.

// Each test uses a part of it.
#![allow(dead_code)]

pub const END: [u8; 3] = [0, 0, 0];

pub fn write(address: u32, value: u32) -> Vec<u8> {
    record(1, &[address.to_be_bytes(), value.to_be_bytes()].concat())
}

pub fn dots(count: u32) -> Vec<u8> {
    record(2, &count.to_be_bytes())
}

pub fn table(bytes: &[u8]) -> Vec<u8> {
    record(3, bytes)
}

pub fn normal(row: &[u8]) -> Vec<u8> {
    record(4, row)
}

pub fn overlay(row: &[u8]) -> Vec<u8> {
    record(5, row)
}

pub fn line(y: u16) -> Vec<u8> {
    record(6, &y.to_be_bytes())
}

/// Any tag with any body that a length can say.
pub fn record(tag: u8, body: &[u8]) -> Vec<u8> {
    let length = u16::try_from(body.len()).expect("a body has at most 65,535 bytes");
    [&[tag], &length.to_be_bytes()[..], body].concat()
}

/// The bytes of a file cut where its records end; the last piece may be a part of a record.
pub fn split(file: &[u8]) -> Vec<Vec<u8>> {
    let mut pieces = Vec::new();
    let mut rest = file;
    while !rest.is_empty() {
        let length = match rest {
            [_, high, low, ..] => 3 + usize::from(u16::from_be_bytes([*high, *low])),
            _ => rest.len(),
        };
        let (piece, after) = rest.split_at(length.min(rest.len()));
        pieces.push(piece.to_vec());
        rest = after;
    }
    pieces
}
