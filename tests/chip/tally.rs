//! How many calls were compared.

use std::fmt;

use crate::pair::{Answer, Call};

#[derive(Default)]
pub struct Tally {
    writes: u64,
    reads: u64,
    dots: u64,
    runs: u64,
    dots_of_runs: u64,
    refused: [u64; 12],
}

impl Tally {
    pub fn count(&mut self, call: Call, answer: Answer) {
        match call {
            Call::Write { .. } => self.writes += 1,
            Call::Read { .. } => self.reads += 1,
            Call::Dot => self.dots += 1,
            Call::Dots { count } => {
                self.runs += 1;
                self.dots_of_runs += if answer.number == 0 { u64::from(count) } else { 0 };
            }
        }
        self.refused[answer.number as usize] += 1;
    }

    /// How many calls there were of the kind that was called least.
    pub fn least(&self) -> u64 {
        [self.writes, self.reads, self.dots, self.runs].into_iter().min().unwrap_or(0)
    }
}

impl fmt::Display for Tally {
    fn fmt(&self, f: &mut fmt::Formatter) -> fmt::Result {
        let Self { writes, reads, dots, runs, dots_of_runs, refused } = self;
        let calls = writes + reads + dots + runs;
        write!(f, "{calls} calls: {writes} writes, {reads} reads, {dots} single dots, ")?;
        write!(f, "{runs} runs of {dots_of_runs} dots in all; {} done", refused[0])?;
        for (number, times) in refused.iter().enumerate().skip(1).filter(|(_, &times)| times > 0) {
            write!(f, ", {times} refused by {number}")?;
        }
        Ok(())
    }
}
