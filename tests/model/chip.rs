//! The chip: register writes and reads, and dots.

use super::beam::{Position, Signals, Timings};
use super::queue::{Queue, Waiting};
use super::registers::{Register, COLOUR_KEPT, COLOUR_MAP, CONTROL_KEPT, STORE_WORDS};

/// The number and the place of a refused call.
pub type Refusal = (u32, u32);

/// The chip without its store.
#[repr(C)]
#[derive(Clone, Copy, PartialEq, Eq, Debug)]
pub struct State {
    pub control: [u32; 9],
    pub at: Position,
    pub queue: Queue,
}

impl State {
    pub const FRESH: Self = Self { control: [0; 9], at: Position { x: 0, y: 0 }, queue: Queue::EMPTY };

    /// Writes a register at once, or lets a colour write join the queue.
    pub fn write(&mut self, store: &mut [u32], address: u32, value: u32) -> Result<(), Refusal> {
        self.check(store)?;
        let place = place(address);
        let register = Register::at(place).ok_or((1, place))?;
        match register {
            Register::Room | Register::Position => return Err((2, place)),
            _ if value & !register.kept() != 0 => return Err((3, place)),
            Register::Control(word) => self.control[word] = value,
            Register::Colour(entry) => self.queue.push(Waiting { entry, colour: value }).ok_or((4, place))?,
            Register::Stored { index, .. } => store[index] = value,
        }
        Ok(())
    }

    /// Reads a register.
    pub fn read(&self, store: &[u32], address: u32) -> Result<u32, Refusal> {
        self.check(store)?;
        let place = place(address);
        let register = Register::at(place).ok_or((1, place))?;
        Ok(match register {
            Register::Control(word) => self.control[word],
            Register::Room => self.queue.room(),
            Register::Position => self.at.x | self.at.y << 16,
            Register::Colour(entry) => store[COLOUR_MAP + entry as usize] & COLOUR_KEPT,
            Register::Stored { index, kept } => store[index] & kept,
        })
    }

    /// Makes one dot.
    pub fn dot(&mut self, store: &mut [u32]) -> Result<Signals, Refusal> {
        self.check(store)?;
        Ok(step(&self.timings(), &mut self.at, &mut self.queue, store))
    }

    /// Makes some dots, and answers what the last of them reports.
    pub fn dots(&mut self, store: &mut [u32], count: u32) -> Result<Option<Signals>, Refusal> {
        self.check(store)?;
        let timings = self.timings();
        let mut at = self.at;
        let mut last = None;
        for _ in 0..count {
            last = Some(step(&timings, &mut at, &mut self.queue, store));
        }
        self.at = at;
        Ok(last)
    }

    pub fn timings(&self) -> Timings {
        Timings::new(&self.control)
    }

    /// Refuses a state that breaks its rule, and then a store of the wrong length.
    fn check(&self, store: &[u32]) -> Result<(), Refusal> {
        if !self.good() {
            Err((11, 0))
        } else if store.len() != STORE_WORDS {
            Err((5, 1))
        } else {
            Ok(())
        }
    }

    /// Whether the state keeps its rule.
    pub fn good(&self) -> bool {
        let stray = self.control.iter().zip(CONTROL_KEPT).any(|(word, kept)| word & !kept != 0);
        !stray && self.at.x <= 4095 && self.at.y <= 4095 && self.queue.good()
    }
}

/// One dot: reports, applies the oldest write where blanked, and moves on.
#[inline(always)]
fn step(timings: &Timings, at: &mut Position, queue: &mut Queue, store: &mut [u32]) -> Signals {
    let signals = timings.signals(*at);
    if signals.blank {
        if let Some(Waiting { entry, colour }) = queue.pop() {
            store[COLOUR_MAP + entry as usize] = colour;
        }
    }
    *at = timings.next(*at);
    signals
}

/// An address as a refusal names it.
fn place(address: u32) -> u32 {
    address & 0x00FF_FFFF
}
