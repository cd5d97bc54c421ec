//! How a file that shows a difference is made small.

use super::recorded;

/// How many bytes of a file are tried one by one.
const BYTES: usize = 400;

/// A file that still differs: without what can be dropped, with narrow lines and short bodies, and with zeros where they
/// will do.
pub fn smallest(file: &[u8], differs: impl Fn(&[u8]) -> bool) -> Vec<u8> {
    let differing = |records: &[Vec<u8>]| differs(&records.concat());
    let mut records = dropped(recorded::split(file), differing);
    for smaller in [narrowed, shortened, emptied] {
        records = smaller(records, &differing);
    }
    let records = dropped(records, differing);
    let file = dropped(records.concat(), &differs);
    zeroed(file, differs)
}

type Differs<'a> = &'a dyn Fn(&[Vec<u8>]) -> bool;

/// Drops runs of elements, long ones first, as long as the rest differs.
fn dropped<T: Clone>(mut list: Vec<T>, differs: impl Fn(&[T]) -> bool) -> Vec<T> {
    let mut size = list.len().min(BYTES);
    while size > 0 {
        let mut from = 0;
        while from < list.len() {
            let mut candidate = list.clone();
            candidate.drain(from..list.len().min(from + size));
            if differs(&candidate) {
                list = candidate;
            } else {
                from += size;
            }
        }
        size /= 2;
    }
    list
}

/// Makes all lines narrower, with their rows, as long as that will do.
fn narrowed(mut records: Vec<Vec<u8>>, differs: Differs) -> Vec<Vec<u8>> {
    let mut width = records.iter().filter_map(|record| width_written(record)).max().unwrap_or(1);
    let mut less = width / 2;
    while less > 0 {
        let narrower = width - less;
        let candidate: Vec<_> = records.iter().map(|record| narrowed_to(record, narrower, width)).collect();
        if differs(&candidate) {
            (records, width) = (candidate, narrower);
            less = less.min(width / 2);
        } else {
            less /= 2;
        }
    }
    records
}

/// The active width that a record writes.
fn width_written(record: &[u8]) -> Option<usize> {
    match record {
        [1, 0, 8, _, 0, 0, 0x1C, _, _, high, low] => Some(1 + usize::from(u16::from_be_bytes([*high, *low]))),
        _ => None,
    }
}

/// A record of lines that are narrower: their size, or a row of theirs cut in proportion.
fn narrowed_to(record: &[u8], narrower: usize, width: usize) -> Vec<u8> {
    match record {
        [4 | 5, _, _, row @ ..] => recorded::record(record[0], &row[..row.len() * narrower / width]),
        _ => match width_written(record) {
            Some(written) => {
                let field = (written.min(narrower) - 1) as u16;
                [&record[..9], &field.to_be_bytes()].concat()
            }
            None => record.to_vec(),
        },
    }
}

/// Halves the bodies of rows and tables, with their lengths.
fn shortened(mut records: Vec<Vec<u8>>, differs: Differs) -> Vec<Vec<u8>> {
    for number in 0..records.len() {
        while let [tag @ 3..=5, _, _, body @ ..] = &records[number][..] {
            let mut candidate = records.clone();
            candidate[number] = recorded::record(*tag, &body[..body.len() / 2]);
            if body.is_empty() || !differs(&candidate) {
                break;
            }
            records = candidate;
        }
    }
    records
}

/// The shortest part of a body that is emptied as a whole.
const SHORTEST: usize = 8;

/// Puts zeros for whole rows and tables, for their halves, and so on.
fn emptied(mut records: Vec<Vec<u8>>, differs: Differs) -> Vec<Vec<u8>> {
    for number in 0..records.len() {
        let mut size = if matches!(records[number][..], [3..=5, _, _, ..]) { records[number].len() - 3 } else { 0 };
        while size >= SHORTEST {
            for from in (3..records[number].len()).step_by(size) {
                let mut candidate = records.clone();
                candidate[number].iter_mut().skip(from).take(size).for_each(|byte| *byte = 0);
                if candidate != records && differs(&candidate) {
                    records = candidate;
                }
            }
            size /= 2;
        }
    }
    records
}

/// Puts zeros for bytes.
fn zeroed(mut file: Vec<u8>, differs: impl Fn(&[u8]) -> bool) -> Vec<u8> {
    for at in 0..file.len().min(BYTES) {
        let old = std::mem::replace(&mut file[at], 0);
        if old != 0 && !differs(&file) {
            file[at] = old;
        }
    }
    file
}
