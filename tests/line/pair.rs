//! The library and the model side by side, on equal states and equal memories.

use crate::answers::Drawn;
use crate::case::Case;
use crate::library;
use crate::model::chip::State;
use crate::tally::Tally;

/// What a line answers: number and place, both 0 where it is drawn, and all words of its output.
#[derive(Clone, PartialEq, Eq)]
pub struct Answer {
    pub number: u32,
    pub place: u32,
    pub output: Vec<u32>,
}

/// An answer worked out by hand: the colours, or number and place.
#[derive(Clone)]
pub enum Wanted {
    Colours(Vec<u32>),
    Refused(u32, u32),
}

/// Elements before and after each lent part, which no call may touch either.
const MARGIN: usize = 64;

/// A lent part and its margins.
struct Memory<T> {
    all: Vec<T>,
    margin: T,
}

impl<T: Copy + PartialEq> Memory<T> {
    fn new(margin: T) -> Self {
        Self { all: Vec::new(), margin }
    }

    fn put(&mut self, part: &[T]) -> &mut [T] {
        self.all.clear();
        self.all.resize(MARGIN, self.margin);
        self.all.extend_from_slice(part);
        self.all.resize(part.len() + 2 * MARGIN, self.margin);
        self.part()
    }

    fn part(&mut self) -> &mut [T] {
        let end = self.all.len() - MARGIN;
        &mut self.all[MARGIN..end]
    }

    fn margins_stay(&self) -> bool {
        let (before, rest) = self.all.split_at(MARGIN);
        let (_, after) = rest.split_at(rest.len() - MARGIN);
        before.iter().chain(after).all(|&element| element == self.margin)
    }

    fn is_still(&mut self, part: &[T]) -> bool {
        self.margins_stay() && self.part() == part
    }
}

/// What the library does with a case.
pub struct OfLibrary {
    pub answer: Answer,
    pub state: State,
    /// Which lent parts changed, or what stands around any of them.
    pub touched: Vec<&'static str>,
}

/// A case on which the two differ, or on which both differ from the answer worked out by hand.
pub struct Difference {
    pub case: Case,
    pub library: OfLibrary,
    pub model: Answer,
    pub wanted: Option<Wanted>,
}

pub type Compared<T> = Result<T, Box<Difference>>;

/// The memories that the library is lent.
pub struct Pair {
    pub tally: Tally,
    store: Memory<u32>,
    table: Memory<u8>,
    normal: Memory<u8>,
    overlay: Memory<u8>,
    output: Memory<u32>,
}

impl Pair {
    pub fn new() -> Self {
        Self {
            tally: Tally::default(),
            store: Memory::new(0x5A5A_1234),
            table: Memory::new(0xA5),
            normal: Memory::new(0xC3),
            overlay: Memory::new(0x3C),
            output: Memory::new(0xA5A5_4321),
        }
    }

    /// Draws a line by both, and compares all that comes of it.
    pub fn lend(&mut self, case: &Case) -> Compared<Answer> {
        let (answer, output) = case.of_model();
        let (number, place) = answer.err().unwrap_or((0, 0));
        let model = Answer { number, place, output };
        self.tally.count(number, case.width());
        let library = self.of_library(case);
        if library.answer != model || library.state != case.state || !library.touched.is_empty() {
            return Err(Box::new(Difference { case: case.clone(), library, model, wanted: None }));
        }
        Ok(model)
    }

    /// The same with an answer worked out by hand; words past the colours stay.
    pub fn expect(&mut self, case: &Case, wanted: Wanted) -> Compared<()> {
        let answer = self.lend(case)?;
        let by_hand = match &wanted {
            Wanted::Refused(number, place) => Answer { number: *number, place: *place, output: case.output.clone() },
            Wanted::Colours(colours) => {
                let past = case.output.get(colours.len()..).unwrap_or_default();
                Answer { number: 0, place: 0, output: [&colours[..], past].concat() }
            }
        };
        if answer == by_hand {
            return Ok(());
        }
        let library = OfLibrary { answer: answer.clone(), state: case.state, touched: Vec::new() };
        Err(Box::new(Difference { case: case.clone(), library, model: answer, wanted: Some(wanted) }))
    }

    pub fn of_library(&mut self, case: &Case) -> OfLibrary {
        let lent = library::Lent {
            store: self.store.put(&case.store),
            table: self.table.put(&case.table),
            normal: self.normal.put(&case.normal),
            overlay: self.overlay.put(&case.overlay),
            output: self.output.put(&case.output),
        };
        let Drawn { state, number, place } = library::line(case.state, case.y, lent);
        let still = [
            ("store", self.store.is_still(&case.store)),
            ("table", self.table.is_still(&case.table)),
            ("normal row", self.normal.is_still(&case.normal)),
            ("overlay row", self.overlay.is_still(&case.overlay)),
            ("what stands around the output", self.output.margins_stay()),
        ];
        let touched = still.into_iter().filter(|(_, still)| !still).map(|(what, _)| what).collect();
        OfLibrary { answer: Answer { number, place, output: self.output.part().to_vec() }, state, touched }
    }
}
