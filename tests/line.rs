//! Lines: the proved library against the plain model.

mod answers;
#[path = "line/case.rs"]
mod case;
#[path = "line/draw.rs"]
mod draw;
mod files;
mod library;
mod model;
mod numbers;
#[path = "line/pair.rs"]
mod pair;
#[path = "line/show.rs"]
mod show;
#[path = "line/shrink.rs"]
mod shrink;
mod states;
#[path = "line/tally.rs"]
mod tally;
#[path = "line/unread.rs"]
mod unread;
#[path = "line/vectors/mod.rs"]
mod vectors;

use std::process::ExitCode;

use case::Case;
use numbers::Numbers;
use pair::{Difference, Pair};
use unread::Noise;

/// How many random lines, every second one damaged.
const LINES: u64 = 1_000_000;

/// One in so many is drawn again with all changed that it doesn't read.
const UNREAD: u64 = 3;

/// So many lines have most of the store in common.
const ON_ONE_BACKGROUND: u64 = 16;

fn main() -> ExitCode {
    let seed = numbers::seed(std::env::args().nth(1));
    println!("line from Rust: seed {seed}");
    let mut pair = Pair::new();
    let compared = compare_all(&mut pair, &mut Numbers::new(seed));
    println!("line from Rust: compared {}", pair.tally);
    match compared {
        Ok(()) => {
            println!("line from Rust: all as the model answers");
            ExitCode::SUCCESS
        }
        Err(difference) => {
            print!("line from Rust: {difference}");
            ExitCode::FAILURE
        }
    }
}

fn compare_all(pair: &mut Pair, numbers: &mut Numbers) -> Result<(), String> {
    let vectors = vectors::all();
    for (what, vector) in &vectors {
        vector(pair).map_err(|difference| format!("{what}: {}", smallest(difference)))?;
    }
    println!("line from Rust: {} vectors alike", vectors.len());
    let lines = numbers::so_many(LINES);
    random(pair, numbers, lines)?;
    println!("line from Rust: {lines} random lines alike");
    Ok(())
}

/// Random lines, whole and damaged, some of them again with all changed that they don't read.
fn random(pair: &mut Pair, numbers: &mut Numbers, lines: u64) -> Result<(), String> {
    let (mut background, mut noise) = (Vec::new(), Noise::new(numbers));
    for number in 0..lines {
        if number % ON_ONE_BACKGROUND == 0 {
            background = draw::background(numbers);
        }
        if number % (1000 * ON_ONE_BACKGROUND) == 0 {
            noise = Noise::new(numbers);
        }
        let draw: fn(&mut Numbers, &[u32]) -> Case = if number % 2 == 0 { draw::case } else { draw::damaged };
        let case = draw(numbers, &background);
        let answer = pair.lend(&case).map_err(smallest)?;
        if number % UNREAD == 0 {
            unread::compare(pair, &case, &answer, &noise, numbers)?;
        }
    }
    Ok(())
}

/// A line that shows a difference, made small; as a session file too where one shows it. One on which both differ from
/// what was worked out by hand stays as it is.
fn smallest(difference: Box<Difference>) -> String {
    if difference.wanted.is_some() {
        return difference.to_string();
    }
    let shrunk = shrink::smallest(difference);
    let file = shrunk.case.records().and_then(|records| files::told("line", &records, &[])).unwrap_or_default();
    format!("{shrunk}{file}")
}
