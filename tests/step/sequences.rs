//! Files stepped through in pieces, some of the steps lent what they refuse.

use crate::model::step::{Held, END, LISTED, MORE};
use crate::pair::{Compared, Difference, Pair};
use crate::rooms::{Fill, Lengths, RIGHT};

/// A change to what a step is given.
#[derive(Clone, Copy, Debug, PartialEq, Eq)]
pub enum Damage {
    Control { word: usize, bit: u32 },
    X(u32),
    Waiting(u32),
    Slot { slot: usize, entry: u32, colour: u32 },
    Table(usize),
    Normal(usize),
    Overlay(usize),
    Records(u32),
    Place(usize),
    Length { room: usize, length: usize },
}

/// How one step is called: how many bytes are lent before the record and how many more behind what was lent so far, the
/// number that says that the file ends, and damage.
#[derive(Clone, Debug, PartialEq, Eq)]
pub struct Whim {
    pub before: usize,
    pub more: usize,
    pub last: u32,
    pub damage: Vec<Damage>,
}

impl Whim {
    /// The whole file, its end said.
    pub const PLAIN: Self = Self { before: usize::MAX, more: usize::MAX, last: 1, damage: Vec::new() };
}

/// What one step is given besides its rooms.
#[derive(Clone)]
pub struct Given {
    pub held: Held,
    pub bytes: Vec<u8>,
    pub place: usize,
    pub last: u32,
    pub lengths: Lengths,
}

impl Given {
    fn damage(&mut self, damage: Damage) {
        match damage {
            Damage::Control { word, bit } => self.held.state.control[word] |= 1 << bit,
            Damage::X(x) => self.held.state.at.x = x,
            Damage::Waiting(waiting) => self.held.state.queue.waiting = waiting,
            Damage::Slot { slot, entry, colour } => {
                let slot = &mut self.held.state.queue.slots[slot];
                (slot.entry, slot.colour) = (entry, colour);
            }
            Damage::Table(bytes) => self.held.table = bytes,
            Damage::Normal(bytes) => self.held.normal = bytes,
            Damage::Overlay(bytes) => self.held.overlay = bytes,
            Damage::Records(records) => self.held.records = records,
            Damage::Place(place) => self.place = place,
            Damage::Length { room, length } => self.lengths[room] = length,
        }
    }
}

/// A file, what it starts from, and how each step is called; steps past the last whim are plain.
#[derive(Clone)]
pub struct Sequence {
    pub start: Held,
    pub fill: Fill,
    pub file: Vec<u8>,
    pub whims: Vec<Whim>,
}

impl Sequence {
    /// Whether it is no more than a file that is stepped through whole.
    pub fn plain(&self) -> bool {
        self.start == Held::FRESH && self.fill == Fill::Zeros && self.whims.is_empty()
    }

    /// Steps up to the run's end or the first difference. Where no step is damaged and the start is fresh, the texts are
    /// the file's listing. Answers how many steps were alike before a difference.
    pub fn run(&self, pair: &mut Pair, listing: impl Fn(&[u8]) -> Vec<u8>) -> Result<(), (usize, Box<Difference>)> {
        pair.begin(self.fill);
        let mut walk = Walk { held: self.start, at: 0, upto: 0, listed: Vec::new() };
        let most = 2 * self.file.len() + self.whims.len() + 4;
        for number in 0..most {
            let whim = self.whims.get(number).cloned().unwrap_or(Whim::PLAIN);
            if walk.step(&self.file, &whim, pair).map_err(|difference| (number, difference))? {
                break;
            }
        }
        let whole = self.start == Held::FRESH
            && matches!(self.fill, Fill::Zeros | Fill::Session(_))
            && self.whims.iter().all(|whim| whim.damage.is_empty());
        assert!(!whole || walk.listed == listing(&self.file), "the model's steps don't give its listing");
        Ok(())
    }
}

/// Where a run stands: the session, the next record's place in the file, and how far the file was lent.
struct Walk {
    held: Held,
    at: usize,
    upto: usize,
    listed: Vec<u8>,
}

impl Walk {
    /// One step; answers whether the run is over. What a damaged step comes to is not gone on from.
    fn step(&mut self, file: &[u8], whim: &Whim, pair: &mut Pair) -> Compared<bool> {
        let from = self.at.saturating_sub(whim.before);
        self.upto = self.upto.saturating_add(whim.more).min(file.len()).max(self.at);
        let last = if self.upto == file.len() { whim.last } else { 0 };
        let bytes = file[from..self.upto].to_vec();
        let mut given = Given { held: self.held, bytes, place: self.at - from, last, lengths: RIGHT };
        whim.damage.iter().for_each(|damage| given.damage(*damage));
        let stepped = pair.lend(&given)?;
        if !whim.damage.is_empty() {
            return Ok(false);
        }
        self.listed.extend_from_slice(pair.text(stepped.text));
        if matches!(stepped.status, LISTED | END) {
            (self.held, self.at) = (stepped.held, from + stepped.next);
        }
        Ok(!matches!(stepped.status, LISTED | MORE))
    }
}
