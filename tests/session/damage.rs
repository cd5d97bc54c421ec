//! Faults put into sessions.

use super::recorded;
use crate::numbers::Numbers;

/// The bytes of a session with a fault or two, of which some don't count.
pub fn damaged(numbers: &mut Numbers, mut records: Vec<Vec<u8>>) -> Vec<u8> {
    for _ in 0..numbers.below(3) {
        numbers.pick(&TO_RECORDS)(&mut records, numbers);
    }
    let mut file = records.concat();
    for _ in 0..numbers.below(3) {
        numbers.pick(&TO_BYTES)(&mut file, numbers);
    }
    file
}

type Damage<T> = fn(&mut Vec<T>, &mut Numbers);

/// Ways to damage a list of records.
const TO_RECORDS: [Damage<Vec<u8>>; 8] = [
    |records, numbers| drop(records.splice(one_of(records, numbers), [])),
    |records, numbers| {
        let at = one_of(records, numbers);
        let again = records[at.clone()].to_vec();
        records.splice(at.start..at.start, again);
    },
    |records, numbers| {
        let (one, other) = (one_of(records, numbers).start, one_of(records, numbers).start);
        if one != other && one.max(other) < records.len() {
            records.swap(one, other);
        }
    },
    |records, numbers| insert(records, numbers, |numbers| vec![numbers.next() as u8]),
    |records, numbers| insert(records, numbers, |numbers| recorded::record(7 + numbers.below(249) as u8, &[0; 5])),
    |records, numbers| {
        insert(records, numbers, |numbers| recorded::record(numbers.below(8) as u8, &[1; 9][..body(numbers)]))
    },
    |records, numbers| insert(records, numbers, |_| recorded::END.to_vec()),
    |records, numbers| insert(records, numbers, |numbers| vec![3, 0xFF, 0xFE + numbers.below(2) as u8]),
];

/// Ways to damage the bytes of a file.
const TO_BYTES: [Damage<u8>; 5] = [
    |file, numbers| file.truncate(one_of(file, numbers).start),
    |file, numbers| {
        let at = one_of(file, numbers);
        file[at].fill(numbers.next() as u8);
    },
    |file, numbers| {
        let at = one_of(file, numbers);
        file[at].iter_mut().for_each(|byte| *byte ^= 1 << numbers.below(8));
    },
    |file, numbers| drop(file.splice(one_of(file, numbers), [])),
    |file, numbers| {
        let at = one_of(file, numbers).start;
        file.splice(at..at, [numbers.pick(&[0, 1, 2, 8, 255])]);
    },
];

/// One place in a list, or none in an empty one.
fn one_of<T>(list: &[T], numbers: &mut Numbers) -> std::ops::Range<usize> {
    match list.len() {
        0 => 0..0,
        length => {
            let at = numbers.below(length as u32) as usize;
            at..at + 1
        }
    }
}

fn insert(records: &mut Vec<Vec<u8>>, numbers: &mut Numbers, record: fn(&mut Numbers) -> Vec<u8>) {
    let at = one_of(records, numbers).start;
    records.insert(at, record(numbers));
}

/// The length of a body that is short.
fn body(numbers: &mut Numbers) -> usize {
    numbers.below(10) as usize
}
