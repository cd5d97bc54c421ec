//! Steps of plain Rust and of the model side by side, on equal sessions and equal rooms.

use std::fmt;

use crate::model::step::{step, Stepped};
use crate::plain;
use crate::rooms::{Fill, Rooms};
use crate::sequences::Given;

/// A step on which the two differ: what it was given, what each answered, and which rooms differ after it.
pub struct Difference {
    given: Given,
    plain: Stepped,
    model: Stepped,
    rooms: Vec<&'static str>,
}

impl fmt::Display for Difference {
    fn fmt(&self, f: &mut fmt::Formatter) -> fmt::Result {
        let Self { given: Given { held, bytes, place, last, lengths }, plain, model, rooms } = self;
        writeln!(f, "{held:?}, {} bytes, place {place}, last {last}, lengths {lengths:?}", bytes.len())?;
        write!(f, "plain Rust: {plain:?}\nthe model: {model:?}\nrooms that differ: {rooms:?}")
    }
}

/// What comes of a comparison.
pub type Compared<T> = Result<T, Box<Difference>>;

/// The rooms of each.
pub struct Pair {
    plain: Rooms,
    model: Rooms,
}

impl Pair {
    /// Rooms of zeros for each.
    pub fn new() -> Self {
        Self { plain: Rooms::new(), model: Rooms::new() }
    }

    /// Starts again from these rooms.
    pub fn begin(&mut self, fill: Fill) {
        self.model.fill(fill);
        self.plain.copy_from(&self.model);
    }

    /// Steps by both, and compares all that comes of it.
    pub fn lend(&mut self, given: &Given) -> Compared<Stepped> {
        let Given { held, bytes, place, last, lengths } = given;
        let plain = plain::step_in(*held, bytes, *place, *last, self.plain.lent(*lengths));
        let model = step(*held, bytes, *place, *last != 0, self.model.lent(*lengths));
        if plain == model && self.plain == self.model {
            return Ok(model);
        }
        let rooms = self.plain.differing(&self.model);
        Err(Box::new(Difference { given: given.clone(), plain, model, rooms }))
    }

    /// So many bytes of the text, which is the same of both.
    pub fn text(&self, length: usize) -> &[u8] {
        self.model.text(length)
    }
}
