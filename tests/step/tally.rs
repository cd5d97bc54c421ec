//! How many steps were compared.

use std::fmt;

use crate::model::step::{Stepped, LISTED};

/// What steps come to, and the records that are listed.
const STATUSES: [&str; 5] = ["refused", "listed", "the end", "more", "stopped"];
const RECORDS: [&str; 7] = ["", "writes", "runs of dots", "parts of a table", "normal rows", "overlay rows", "lines"];

#[derive(Default)]
pub struct Tally {
    statuses: [u64; 5],
    records: [u64; 7],
    refused: [u64; 15],
}

impl Tally {
    pub fn count(&mut self, stepped: &Stepped, tag: Option<&u8>) {
        self.statuses[stepped.status as usize] += 1;
        self.refused[stepped.number as usize] += 1;
        if let (LISTED, Some(tag)) = (stepped.status, tag) {
            self.records[usize::from(*tag)] += 1;
        }
    }

    pub fn steps(&self) -> u64 {
        self.statuses.iter().sum()
    }
}

impl fmt::Display for Tally {
    fn fmt(&self, f: &mut fmt::Formatter) -> fmt::Result {
        write!(f, "{} steps:", self.steps())?;
        for (times, status) in self.statuses.iter().zip(STATUSES) {
            write!(f, " {times} {status},")?;
        }
        write!(f, " listed")?;
        for (times, records) in self.records.iter().zip(RECORDS).skip(1) {
            write!(f, " {times} {records},")?;
        }
        write!(f, " refused")?;
        for (number, times) in self.refused.iter().enumerate().skip(1).filter(|(_, &times)| times > 0) {
            write!(f, " {times} by {number},")?;
        }
        write!(f, " and all else done")
    }
}
