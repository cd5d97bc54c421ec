//! Sequences of calls.

use crate::files::{reached, recorded};
use crate::model::chip::State;
use crate::model::registers::STORE_WORDS;
use crate::pair::{Call, Compared, Difference, Fill, Pair};

/// A change to a state before it is lent.
#[derive(Clone, Copy, PartialEq, Eq)]
pub enum Damage {
    Control { word: usize, bit: u32 },
    X(u32),
    Y(u32),
    Waiting(u32),
    Entry { slot: usize, entry: u32 },
    Colour { slot: usize, colour: u32 },
}

impl Damage {
    pub fn put_into(self, state: &mut State) {
        match self {
            Self::Control { word, bit } => state.control[word] |= 1 << bit,
            Self::X(x) => state.at.x = x,
            Self::Y(y) => state.at.y = y,
            Self::Waiting(waiting) => state.queue.waiting = waiting,
            Self::Entry { slot, entry } => state.queue.slots[slot].entry = entry,
            Self::Colour { slot, colour } => state.queue.slots[slot].colour = colour,
        }
    }
}

/// A call, with what it is lent.
#[derive(Clone, PartialEq, Eq)]
pub struct Step {
    pub damage: Vec<Damage>,
    pub length: usize,
    pub call: Call,
}

/// The longest run while something waits, for its time may grow with every dot.
const LONGEST_WHILE_WAITING: u32 = 1 << 12;

impl Step {
    /// Damage that is refused is taken back, so that the sequence goes on.
    fn run(&self, pair: &mut Pair) -> Compared<()> {
        let whole = pair.state;
        for damage in &self.damage {
            damage.put_into(&mut pair.state);
        }
        let call = match self.call {
            Call::Dots { count } if pair.state.queue.waiting > 0 => {
                Call::Dots { count: count.min(LONGEST_WHILE_WAITING) }
            }
            call => call,
        };
        if pair.lend(self.length, call)?.number == 11 {
            pair.state = whole;
        }
        Ok(())
    }
}

/// Calls on one chip, each lent what the one before it left.
#[derive(Clone)]
pub struct Sequence {
    pub start: State,
    pub fill: Fill,
    pub steps: Vec<Step>,
}

impl Sequence {
    /// Runs up to the first difference, and answers how many steps were alike before it.
    pub fn run(&self, pair: &mut Pair) -> Result<(), (usize, Box<Difference>)> {
        pair.begin(self.start, self.fill);
        for (number, step) in self.steps.iter().enumerate() {
            step.run(pair).map_err(|difference| (number, difference))?;
        }
        Ok(())
    }

    /// The sequence as records of a session, without its reads, of which no record tells. None where calls are lent what
    /// no session lends.
    pub fn records(&self) -> Option<Vec<Vec<u8>>> {
        let mut pair = Pair::new();
        pair.begin(self.start, self.fill);
        let store: Vec<u32> = (0..STORE_WORDS).map(|index| pair.stored(index)).collect();
        let mut records = reached::records(&self.start, &store)?;
        for Step { damage, length, call } in &self.steps {
            if !damage.is_empty() || *length != STORE_WORDS {
                return None;
            }
            records.extend(match *call {
                Call::Write { address, value } => Some(recorded::write(address, value)),
                Call::Read { .. } => None,
                Call::Dot => Some(recorded::dots(1)),
                Call::Dots { count } => Some(recorded::dots(count)),
            });
        }
        records.push(recorded::END.to_vec());
        Some(records)
    }
}
