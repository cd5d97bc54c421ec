//! Steps and differences in words.

use std::fmt::{self, Display, Formatter};

use crate::files::written::{hex, lines, records};
use crate::model::step::Stepped;
use crate::pair::Difference;
use crate::rooms::{NAMES, RIGHT};
use crate::sequences::{Given, Sequence, Whim};

/// How many bytes are shown.
const SHOWN: usize = 400;

/// A sequence, by its parts.
impl Display for Sequence {
    fn fmt(&self, f: &mut Formatter) -> fmt::Result {
        let Self { start, fill, file, whims } = self;
        writeln!(
            f,
            "from {} records, {} table and {} and {} row bytes",
            start.records, start.table, start.normal, start.overlay
        )?;
        writeln!(f, "  state {}, rooms {fill:?}", start.state)?;
        writeln!(f, "  file of {} bytes:", file.len())?;
        write!(f, "{}", records(file))?;
        for (number, whim) in whims.iter().enumerate() {
            writeln!(f, "  step {number}: {whim}")?;
        }
        writeln!(f, "  and plain steps after that")
    }
}

/// How a step is called where it isn't plain.
impl Display for Whim {
    fn fmt(&self, f: &mut Formatter) -> fmt::Result {
        let Self { before, more, last, damage } = self;
        match more {
            &usize::MAX => write!(f, "all bytes, ")?,
            more => write!(f, "{more} bytes more, ")?,
        }
        if *before < usize::MAX {
            write!(f, "from {before} before the record on, ")?;
        }
        write!(f, "last {last}")?;
        damage.iter().try_for_each(|damage| write!(f, ", with {damage:?}"))
    }
}

impl Display for Given {
    fn fmt(&self, f: &mut Formatter) -> fmt::Result {
        let Self { held, bytes, place, last, lengths } = self;
        write!(f, "place {place} of {} bytes, last {last}, record {}, ", bytes.len(), held.records)?;
        write!(f, "{} table, {} normal and {} overlay bytes held", held.table, held.normal, held.overlay)?;
        for ((name, length), right) in NAMES.iter().zip(lengths).zip(RIGHT) {
            if *length != right {
                write!(f, ", {name} of {length}")?;
            }
        }
        writeln!(f, "\n  state {}", held.state)?;
        let from = bytes.get(*place..).unwrap_or_default();
        writeln!(f, "  bytes from there on {}", hex(&from[..from.len().min(SHOWN)]))
    }
}

/// What a step answers, in words.
fn answered(stepped: &Stepped, text: &[u8]) -> String {
    let Stepped { held, next, text: length, number, place, status } = stepped;
    let counts = format!("{} {} {} {}", held.records, held.table, held.normal, held.overlay);
    let text = lines(&text[..text.len().min(SHOWN)]).replace('\n', " / ");
    format!("status {status}, next {next}, number {number}, place {place}, counts {counts}, text of {length} bytes: {text}")
}

impl Display for Difference {
    fn fmt(&self, f: &mut Formatter) -> fmt::Result {
        let Self { given, library, model, texts: [of_library, of_model], differing, words } = self;
        write!(f, "{given}")?;
        writeln!(f, "  library: {}", answered(library, of_library))?;
        writeln!(f, "  model:   {}", answered(model, of_model))?;
        if library.held.state != model.held.state {
            writeln!(f, "  state after, library: {}", library.held.state)?;
            writeln!(f, "  state after, model:   {}", model.held.state)?;
        }
        for what in differing {
            writeln!(f, "  not the same in or around the {what}")?;
        }
        if !words.is_empty() {
            writeln!(f, "  in words {words:?} of the store")?;
        }
        Ok(())
    }
}
