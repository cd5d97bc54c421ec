//! The library and the model side by side, on equal sessions and equal rooms.

use crate::library;
use crate::model::step::{step, Stepped};
use crate::rooms::{Fill, Rooms};
use crate::sequences::Given;
use crate::tally::Tally;

/// A step on which the two differ.
pub struct Difference {
    pub given: Given,
    pub library: Stepped,
    pub model: Stepped,
    pub texts: [Vec<u8>; 2],
    /// Which rooms differ, or what stands around any of them, or that the lent bytes changed.
    pub differing: Vec<&'static str>,
    /// The words of the store that differ.
    pub words: Vec<usize>,
}

pub type Compared<T> = Result<T, Box<Difference>>;

/// The rooms of each.
pub struct Pair {
    pub tally: Tally,
    library: Rooms,
    model: Rooms,
}

impl Pair {
    pub fn new() -> Self {
        Self { tally: Tally::default(), library: Rooms::new(), model: Rooms::new() }
    }

    /// Starts again from these rooms.
    pub fn begin(&mut self, fill: Fill) {
        self.model.fill(fill);
        self.library.copy_from(&self.model);
    }

    /// Steps by both, and compares all that comes of it.
    pub fn lend(&mut self, given: &Given) -> Compared<Stepped> {
        let Given { held, bytes, place, last, lengths } = given;
        let mut lent = bytes.clone();
        let library = library::step(*held, &mut lent, *place, *last, self.library.lent(*lengths));
        let model = step(*held, bytes, *place, *last != 0, self.model.lent(*lengths));
        self.tally.count(&model, bytes.get(*place));
        if library == model && lent == *bytes && self.library == self.model {
            return Ok(model);
        }
        let mut differing = self.library.differing(&self.model);
        differing.extend((lent != *bytes).then_some("lent bytes"));
        let texts = [self.library.text(library.text).to_vec(), self.model.text(model.text).to_vec()];
        let words = self.library.differing_words(&self.model);
        Err(Box::new(Difference { given: given.clone(), library, model, texts, differing, words }))
    }

    /// So many bytes of the text, which is the same of both.
    pub fn text(&self, length: usize) -> &[u8] {
        self.model.text(length)
    }
}
