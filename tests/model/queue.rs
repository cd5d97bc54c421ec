//! The queue of colour writes.

use super::registers::{COLOUR_ENTRIES, COLOUR_KEPT};

/// How many writes may wait.
pub const DEPTH: usize = 64;

/// A colour write that waits.
#[repr(C)]
#[derive(Clone, Copy, PartialEq, Eq, Debug)]
pub struct Waiting {
    pub entry: u32,
    pub colour: u32,
}

impl Waiting {
    /// What a slot holds that nothing was put into.
    pub const NONE: Self = Self { entry: 0, colour: 0 };

    fn good(&self) -> bool {
        self.entry < COLOUR_ENTRIES && self.colour <= COLOUR_KEPT
    }
}

/// Writes in the order in which they came, the oldest in slot 0.
#[repr(C)]
#[derive(Clone, Copy, PartialEq, Eq, Debug)]
pub struct Queue {
    pub waiting: u32,
    pub slots: [Waiting; DEPTH],
}

impl Queue {
    pub const EMPTY: Self = Self { waiting: 0, slots: [Waiting::NONE; DEPTH] };

    /// Whether no more wait than there are slots, and each is a colour for an entry of the map.
    pub fn good(&self) -> bool {
        self.slots.get(..self.waiting as usize).is_some_and(|waiting| waiting.iter().all(Waiting::good))
    }

    /// How many more writes may join.
    pub fn room(&self) -> u32 {
        DEPTH as u32 - self.waiting
    }

    /// Puts a write behind those that wait, or answers that the queue is full.
    pub fn push(&mut self, write: Waiting) -> Option<()> {
        *self.slots.get_mut(self.waiting as usize)? = write;
        self.waiting += 1;
        Some(())
    }

    /// Takes the oldest write out; every other slot moves up by one.
    pub fn pop(&mut self) -> Option<Waiting> {
        self.waiting = self.waiting.checked_sub(1)?;
        let oldest = self.slots[0];
        self.slots.copy_within(1.., 0);
        self.slots[DEPTH - 1] = Waiting::NONE;
        Some(oldest)
    }
}
