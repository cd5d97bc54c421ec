//! The library and the model side by side, on equal states and equal memories.

use crate::answers::{Dotted, ReadBack, Written};
use crate::library;
use crate::model::beam::Signals;
use crate::model::chip::State;
use crate::model::frames;
use crate::model::registers::STORE_WORDS;
use crate::numbers::Numbers;
use crate::tally::Tally;

/// One call on the chip.
#[derive(Clone, Copy, PartialEq, Eq)]
pub enum Call {
    Write { address: u32, value: u32 },
    Read { address: u32 },
    Dot,
    Dots { count: u32 },
}

/// All that a call answers beside the state: number, place, and a word or whether dots were made and three signals.
#[derive(Clone, Copy, PartialEq, Eq)]
pub struct Answer {
    pub number: u32,
    pub place: u32,
    pub values: [u32; 4],
}

impl Answer {
    /// Of an accepted write, and of a run of no dots.
    pub const DONE: Self = Self { number: 0, place: 0, values: [0; 4] };

    pub fn refused(number: u32, place: u32) -> Self {
        Self { number, place, values: [0; 4] }
    }

    pub fn word(word: u32) -> Self {
        Self { values: [word, 0, 0, 0], ..Self::DONE }
    }

    pub fn reported(hsync: bool, vsync: bool, blank: bool) -> Self {
        Self { values: [1, hsync.into(), vsync.into(), blank.into()], ..Self::DONE }
    }

    pub fn of_signals(signals: Signals) -> Self {
        Self::reported(signals.hsync, signals.vsync, signals.blank)
    }
}

/// What a call hands back.
#[derive(Clone, Copy, PartialEq, Eq)]
pub struct Outcome {
    pub state: State,
    pub answer: Answer,
}

impl Call {
    fn of_library(self, state: State, store: &mut [u32]) -> Outcome {
        match self {
            Self::Write { address, value } => {
                let Written { state, number, place } = library::write(state, store, address, value);
                Outcome { state, answer: Answer { number, place, values: [0; 4] } }
            }
            Self::Read { address } => {
                let ReadBack { state, number, place, word } = library::read(state, store, address);
                Outcome { state, answer: Answer { number, place, values: [word, 0, 0, 0] } }
            }
            Self::Dot => Self::of_dotted(library::dot(state, store)),
            Self::Dots { count } => Self::of_dotted(library::dots(state, store, count)),
        }
    }

    fn of_dotted(dotted: Dotted) -> Outcome {
        let Dotted { state, number, place, reported, hsync, vsync, blank } = dotted;
        Outcome { state, answer: Answer { number, place, values: [reported, hsync, vsync, blank] } }
    }

    fn of_model(self, mut state: State, store: &mut [u32]) -> Outcome {
        let answer = match self {
            Self::Write { address, value } => state.write(store, address, value).map(|()| Answer::DONE),
            Self::Read { address } => state.read(store, address).map(Answer::word),
            Self::Dot => state.dot(store).map(Answer::of_signals),
            Self::Dots { count } => {
                frames::dots(&mut state, store, count).map(|last| last.map_or(Answer::DONE, Answer::of_signals))
            }
        };
        Outcome { state, answer: answer.unwrap_or_else(|(number, place)| Answer::refused(number, place)) }
    }
}

/// What a store holds at first.
#[derive(Clone, Copy, Debug)]
pub enum Fill {
    Zeros,
    Ones,
    Numbers(u64),
}

/// Words before and after the lent store, which no call may touch either.
const MARGIN: usize = 64;

/// The store and its margins.
#[derive(Clone, PartialEq, Eq)]
struct Memory(Vec<u32>);

impl Memory {
    fn new() -> Self {
        Self(vec![0; MARGIN + STORE_WORDS + MARGIN])
    }

    fn fill(&mut self, fill: Fill) {
        match fill {
            Fill::Zeros => self.0.fill(0),
            Fill::Ones => self.0.fill(u32::MAX),
            Fill::Numbers(seed) => {
                let mut numbers = Numbers::new(seed);
                self.0.fill_with(|| numbers.next());
            }
        }
    }

    fn lent(&mut self, length: usize) -> &mut [u32] {
        &mut self.0[MARGIN..MARGIN + length]
    }
}

/// A word in which the memories differ, by its index in the store.
pub struct Word {
    pub index: isize,
    pub library: u32,
    pub model: u32,
}

/// A call on which the two differ, or on which both differ from the answer worked out by hand.
pub struct Difference {
    pub call: Call,
    pub length: usize,
    pub before: State,
    pub library: Outcome,
    pub model: Outcome,
    pub words: Vec<Word>,
    pub wanted: Option<Answer>,
}

pub type Compared<T> = Result<T, Box<Difference>>;

/// The state that both go on from, and the memory of each.
pub struct Pair {
    pub state: State,
    pub tally: Tally,
    library: Memory,
    model: Memory,
}

impl Pair {
    pub fn new() -> Self {
        Self { state: State::FRESH, tally: Tally::default(), library: Memory::new(), model: Memory::new() }
    }

    /// Starts again from a state and a store.
    pub fn begin(&mut self, state: State, fill: Fill) {
        self.state = state;
        self.model.fill(fill);
        self.library.0.copy_from_slice(&self.model.0);
    }

    /// Makes a call on both, lending so many words of the store, and compares all that comes of it.
    pub fn lend(&mut self, length: usize, call: Call) -> Compared<Answer> {
        let before = self.state;
        let library = call.of_library(before, self.library.lent(length));
        let model = call.of_model(before, self.model.lent(length));
        self.tally.count(call, model.answer);
        if library != model || self.library != self.model {
            return Err(Box::new(Difference {
                call,
                length,
                before,
                library,
                model,
                words: self.words(),
                wanted: None,
            }));
        }
        self.state = model.state;
        Ok(model.answer)
    }

    /// The same with an answer worked out by hand.
    pub fn expect_of(&mut self, length: usize, call: Call, wanted: Answer) -> Compared<()> {
        let before = self.state;
        let answer = self.lend(length, call)?;
        if answer == wanted {
            return Ok(());
        }
        let both = Outcome { state: self.state, answer };
        let words = Vec::new();
        Err(Box::new(Difference { call, length, before, library: both, model: both, words, wanted: Some(wanted) }))
    }

    /// The same with a store of the right length.
    pub fn expect(&mut self, call: Call, wanted: Answer) -> Compared<()> {
        self.expect_of(STORE_WORDS, call, wanted)
    }

    /// A word of the store as it stands.
    pub fn stored(&self, index: usize) -> u32 {
        self.model.0[MARGIN + index]
    }

    fn words(&self) -> Vec<Word> {
        let both = self.library.0.iter().zip(&self.model.0).enumerate();
        both.filter(|(_, (library, model))| library != model)
            .map(|(at, (&library, &model))| Word { index: at as isize - MARGIN as isize, library, model })
            .collect()
    }
}
