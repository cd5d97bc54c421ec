//! Cases and differences in words.

use std::fmt::{self, Display, Formatter, LowerHex};

use crate::case::Case;
use crate::pair::{Answer, Difference, Wanted};

/// How many elements of a part are shown.
const SHOWN: usize = 100;

/// The elements of a part that aren't zero, each by its index.
struct Sparse<'a, T>(&'a [T]);

impl<T: LowerHex + PartialEq + Default> Display for Sparse<'_, T> {
    fn fmt(&self, f: &mut Formatter) -> fmt::Result {
        write!(f, "{} long", self.0.len())?;
        let mut elements = self.0.iter().enumerate().filter(|(_, element)| **element != T::default());
        for (index, element) in elements.by_ref().take(SHOWN) {
            write!(f, " [{index}] {element:x}")?;
        }
        match elements.count() {
            0 => Ok(()),
            more => write!(f, " and {more} more"),
        }
    }
}

impl Display for Case {
    fn fmt(&self, f: &mut Formatter) -> fmt::Result {
        writeln!(f, "line {}, {}", self.y, self.state)?;
        writeln!(f, "  store {}", Sparse(&self.store))?;
        writeln!(f, "  table {}", Sparse(&self.table))?;
        writeln!(f, "  normal row {}", Sparse(&self.normal))?;
        writeln!(f, "  overlay row {}", Sparse(&self.overlay))?;
        writeln!(f, "  output before {}", Sparse(&self.output))
    }
}

impl Display for Answer {
    fn fmt(&self, f: &mut Formatter) -> fmt::Result {
        write!(f, "number {}, place {}, output {}", self.number, self.place, Sparse(&self.output))
    }
}

impl Display for Wanted {
    fn fmt(&self, f: &mut Formatter) -> fmt::Result {
        match self {
            Self::Colours(colours) => write!(f, "drawn, colours {}", Sparse(colours)),
            Self::Refused(number, place) => write!(f, "refused by {number} at {place}"),
        }
    }
}

impl Display for Difference {
    fn fmt(&self, f: &mut Formatter) -> fmt::Result {
        let Self { case, library, model, wanted } = self;
        write!(f, "{}", if wanted.is_some() { case.read_alone() } else { case.clone() })?;
        writeln!(f, "  library: {}", library.answer)?;
        writeln!(f, "  model:   {model}")?;
        if let Some(wanted) = wanted {
            writeln!(f, "  by hand: {wanted}")?;
        }
        if let Some((x, (library, model))) =
            (0..).zip(library.answer.output.iter().zip(&model.output)).find(|(_, (library, model))| library != model)
        {
            writeln!(f, "  first at pixel {x}: library {library:#08x}, model {model:#08x}")?;
        }
        if library.state != case.state {
            writeln!(f, "  the library's state after: {}", library.state)?;
        }
        for what in &library.touched {
            writeln!(f, "  the library changed the {what}")?;
        }
        Ok(())
    }
}
