//! Calls and differences in words.

use std::fmt;

use crate::model::registers::STORE_WORDS;
use crate::pair::{Answer, Call, Difference};
use crate::sequences::{Damage, Sequence, Step};

impl fmt::Display for Call {
    fn fmt(&self, f: &mut fmt::Formatter) -> fmt::Result {
        match self {
            Self::Write { address, value } => write!(f, "write {value:#010x} at {address:#010x}"),
            Self::Read { address } => write!(f, "read at {address:#010x}"),
            Self::Dot => write!(f, "one dot"),
            Self::Dots { count } => write!(f, "{count} dots"),
        }
    }
}

/// An answer to a call, in words.
fn answered(call: Call, answer: Answer) -> String {
    let Answer { number, place, values: [first, hsync, vsync, blank] } = answer;
    let values = match call {
        Call::Write { .. } => String::new(),
        Call::Read { .. } => format!(", word {first:#010x}"),
        Call::Dot | Call::Dots { .. } => format!(", reported {first}, hsync {hsync}, vsync {vsync}, blank {blank}"),
    };
    format!("number {number}, place {place:#08x}{values}")
}

impl fmt::Display for Difference {
    fn fmt(&self, f: &mut fmt::Formatter) -> fmt::Result {
        let Self { call, length, before, library, model, words, wanted } = self;
        writeln!(f, "{call}, {length} words lent")?;
        writeln!(f, "  state before: {before}")?;
        writeln!(f, "  library: {}", answered(*call, library.answer))?;
        writeln!(f, "  model:   {}", answered(*call, model.answer))?;
        if let Some(wanted) = wanted {
            writeln!(f, "  by hand: {}", answered(*call, *wanted))?;
        }
        if library.state != model.state {
            writeln!(f, "  state after, library: {}", library.state)?;
            writeln!(f, "  state after, model:   {}", model.state)?;
        }
        for word in words {
            writeln!(f, "  store word {}: library {:#010x}, model {:#010x}", word.index, word.library, word.model)?;
        }
        Ok(())
    }
}

impl fmt::Display for Damage {
    fn fmt(&self, f: &mut fmt::Formatter) -> fmt::Result {
        match self {
            Self::Control { word, bit } => write!(f, "bit {bit} of control word {word} set"),
            Self::X(x) => write!(f, "x {x}"),
            Self::Y(y) => write!(f, "y {y}"),
            Self::Waiting(waiting) => write!(f, "{waiting} waiting"),
            Self::Entry { slot, entry } => write!(f, "entry {entry} in slot {slot}"),
            Self::Colour { slot, colour } => write!(f, "colour {colour:#x} in slot {slot}"),
        }
    }
}

impl fmt::Display for Step {
    fn fmt(&self, f: &mut fmt::Formatter) -> fmt::Result {
        write!(f, "{}", self.call)?;
        if self.length != STORE_WORDS {
            write!(f, ", {} words lent", self.length)?;
        }
        for damage in &self.damage {
            write!(f, ", with {damage}")?;
        }
        Ok(())
    }
}

impl fmt::Display for Sequence {
    fn fmt(&self, f: &mut fmt::Formatter) -> fmt::Result {
        writeln!(f, "from {}, store {:?}:", self.start, self.fill)?;
        for step in &self.steps {
            writeln!(f, "  {step}")?;
        }
        Ok(())
    }
}
