//! Session files as text, in the form of the cases.

use std::fmt::Write;

use super::recorded;

/// As many equal bytes as are written with their number.
const RUN: usize = 8;

/// How many groups of bytes stand in a line.
const GROUPS: usize = 24;

/// A case of this name: what it shows, its bytes and its listing.
pub fn case(name: &str, shows: &str, file: &[u8], listing: &[u8]) -> String {
    format!("== {name}\n{shows}\n{}--\n{}", records(file), lines(listing))
}

/// The bytes of a file, each record in lines of its own, and equal records only once.
pub fn records(file: &[u8]) -> String {
    let one = |equal: &[Vec<u8>]| match equal.len() {
        1 => in_lines(&groups(&equal[0])),
        times => format!("( {} )*{times}\n", in_lines(&groups(&equal[0])).trim_end()),
    };
    recorded::split(file).chunk_by(|one, next| one == next).map(one).collect()
}

/// The bytes of a record: its tag, its length, and its body by fours or by runs of equal ones.
fn groups(record: &[u8]) -> Vec<String> {
    let (head, body) = record.split_at(record.len().min(3));
    let (tag, length) = head.split_at(head.len().min(1));
    let mut groups = vec![hex(tag)];
    groups.extend((!length.is_empty()).then(|| hex(length)));
    for equal in body.chunk_by(|one, next| one == next) {
        if equal.len() >= RUN {
            groups.push(format!("{:02x}*{}", equal[0], equal.len()));
        } else {
            equal.iter().for_each(|byte| push_byte(&mut groups, *byte));
        }
    }
    groups
}

/// Puts a byte into the last group of a body, or into a new one where that is full.
fn push_byte(groups: &mut Vec<String>, byte: u8) {
    match groups.get_mut(2..).and_then(|body| body.last_mut()) {
        Some(last) if last.len() < 8 && !last.contains('*') => *last += &hex(&[byte]),
        _ => groups.push(hex(&[byte])),
    }
}

fn in_lines(groups: &[String]) -> String {
    groups.chunks(GROUPS).map(|line| line.join(" ") + "\n").collect()
}

pub fn hex(bytes: &[u8]) -> String {
    bytes.iter().fold(String::new(), |mut text, byte| {
        write!(text, "{byte:02x}").expect("a text grows");
        text
    })
}

/// A listing, each run of equal lines as one.
pub fn lines(listing: &[u8]) -> String {
    let text = String::from_utf8_lossy(listing);
    let lines: Vec<&str> = text.lines().collect();
    let one = |equal: &[&str]| match equal.len() {
        1 => format!("{}\n", equal[0]),
        times => format!("{} * {times}\n", equal[0]),
    };
    lines.chunk_by(|one, next| one == next).map(one).collect()
}
