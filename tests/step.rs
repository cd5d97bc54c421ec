//! Steps of sessions: the proved library against the plain model, call by call.

mod answers;
#[path = "session/damage.rs"]
mod damage;
#[path = "step/draw.rs"]
mod draw;
mod files;
mod library;
mod model;
mod numbers;
#[path = "step/pair.rs"]
mod pair;
#[path = "step/rooms.rs"]
mod rooms;
#[path = "step/sequences.rs"]
mod sequences;
#[path = "session/draw.rs"]
mod session;
#[path = "step/show.rs"]
mod show;
#[path = "step/shrink.rs"]
mod shrink;
mod states;
#[path = "session/tables.rs"]
mod tables;
#[path = "step/tally.rs"]
mod tally;

use std::process::ExitCode;

use files::recorded;
use model::step::Held;
use numbers::Numbers;
use pair::Pair;
use sequences::Sequence;

/// How many steps at least.
const STEPS: u64 = 2_000_000;

fn main() -> ExitCode {
    let seed = numbers::seed(std::env::args().nth(1));
    println!("steps from Rust: seed {seed}");
    let mut pair = Pair::new();
    let compared = compare_all(&mut pair, &mut Numbers::new(seed));
    println!("steps from Rust: compared {}", pair.tally);
    match compared {
        Ok(()) => {
            println!("steps from Rust: all as the model answers");
            ExitCode::SUCCESS
        }
        Err(difference) => {
            print!("steps from Rust: {difference}");
            ExitCode::FAILURE
        }
    }
}

fn compare_all(pair: &mut Pair, numbers: &mut Numbers) -> Result<(), String> {
    if library::fresh_session() != Held::FRESH {
        return Err(format!("the fresh session is {:?}\n", library::fresh_session()));
    }
    let mut sequences = 0;
    let steps = numbers::so_many(STEPS);
    while pair.tally.steps() < steps {
        let sequence = draw::sequence(numbers);
        sequence.run(pair, files::of_model).map_err(|_| smallest(sequence))?;
        sequences += 1;
    }
    println!("steps from Rust: {sequences} random files alike");
    Ok(())
}

/// A sequence that shows a difference, made small, and as a session file where it is one.
fn smallest(sequence: Sequence) -> String {
    let shrunk = shrink::smallest(sequence);
    let Some((number, difference)) = shrink::difference(&shrunk) else {
        return format!("a difference that doesn't come again, {shrunk}");
    };
    let records = recorded::split(&shrunk.file);
    let file = if shrunk.plain() { files::told("step", &records, &difference.words) } else { None };
    format!("{shrunk}step {number}: {difference}{}", file.unwrap_or_default())
}
