//! States in words.

use std::fmt;

use crate::model::chip::State;
use crate::model::queue::Waiting;

/// How many slots are shown.
const SHOWN: usize = 6;

impl fmt::Display for State {
    fn fmt(&self, f: &mut fmt::Formatter) -> fmt::Result {
        write!(f, "control")?;
        for word in self.control {
            write!(f, " {word:08x}")?;
        }
        write!(f, ", at {} {}, {} waiting, slots", self.at.x, self.at.y, self.queue.waiting)?;
        let mut slots = self.queue.slots.iter().enumerate().filter(|(_, &slot)| slot != Waiting::NONE);
        for (number, slot) in slots.by_ref().take(SHOWN) {
            write!(f, " [{number}] {} {:06x}", slot.entry, slot.colour)?;
        }
        match slots.count() {
            0 => Ok(()),
            more => write!(f, " and {more} more"),
        }
    }
}
