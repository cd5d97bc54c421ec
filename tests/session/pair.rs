//! The program and the model side by side.

use std::io;

use crate::model::session;
use crate::program::{quiet, Program};
use crate::show::Difference;
use crate::shrink;
use crate::tally::Tally;

pub struct Pair {
    pub program: Program,
    pub tally: Tally,
}

/// What the model lists of a file's bytes.
pub fn of_model(file: &[u8]) -> Vec<u8> {
    let mut listing = Vec::new();
    session::list(file, &mut listing).expect("bytes in memory are read, and a listing in memory is written");
    listing
}

impl Pair {
    pub fn new(program: Program) -> Self {
        Self { program, tally: Tally::default() }
    }

    /// Lists files in one run, and compares it with their listings by the model, one after another.
    pub fn compare(&mut self, files: &[Vec<u8>]) -> Result<(), String> {
        let names: Vec<String> = (0..files.len()).map(|number| format!("{number}.session")).collect();
        for (name, file) in names.iter().zip(files) {
            self.program.put(name, file).map_err(|error| format!("{name}: {error}"))?;
        }
        let listings: Vec<_> = files.iter().map(|file| of_model(file)).collect();
        listings.iter().for_each(|listing| self.tally.count(listing));
        match self.program.run(&names).and_then(quiet) {
            Ok(listing) if listing == listings.concat() => Ok(()),
            Ok(listing) => Err(self.first_difference(files).unwrap_or_else(|| in_one_run(&listing, &listings))),
            Err(error) => Err(format!("{error}\n{}", self.first_difference(files).unwrap_or_default())),
        }
    }

    /// Compares a listing, in whatever way it came of the file, with that of the model.
    pub fn compare_one(
        &self,
        file: &[u8],
        model: &[u8],
        list: impl Fn(&Program, &[u8]) -> io::Result<Vec<u8>>,
    ) -> Result<(), String> {
        match list(&self.program, file) {
            Ok(listing) if listing == model => Ok(()),
            program => Err(self.told(Difference { file: file.to_vec(), program, model: model.to_vec() })),
        }
    }

    /// The first file whose listing differs in a run of its own, made small.
    fn first_difference(&self, files: &[Vec<u8>]) -> Option<String> {
        let file = files.iter().find(|file| self.differs(file))?;
        let file = shrink::smallest(file, |candidate| self.differs(candidate));
        Some(self.told(Difference { program: self.program.list(&file), model: of_model(&file), file }))
    }

    /// A difference in words, with its file kept beside the others.
    fn told(&self, difference: Difference) -> String {
        const NAME: &str = "different.session";
        match self.program.put(NAME, &difference.file) {
            Ok(()) => format!("{difference}  the file is kept as {NAME} in the tests' folder\n"),
            Err(error) => format!("{difference}  {NAME}: {error}\n"),
        }
    }

    fn differs(&self, file: &[u8]) -> bool {
        self.program.list(file).map_or(true, |listing| listing != of_model(file))
    }
}

/// Where the listing of files in one run leaves their listings, which are alike one by one.
fn in_one_run(listing: &[u8], listings: &[Vec<u8>]) -> String {
    let mut rest = listing;
    let departs = listings.iter().position(|one| match rest.strip_prefix(&one[..]) {
        Some(after) => {
            rest = after;
            false
        }
        None => true,
    });
    let number = departs.unwrap_or(listings.len());
    format!(
        "file by file all is alike, but in one run the listing leaves that of file {number} of {}\n",
        listings.len()
    )
}
