//! Sessions: the program `replay`, whose path is the first word, against the plain model.

#[path = "session/damage.rs"]
mod damage;
#[path = "session/draw.rs"]
mod draw;
#[path = "session/limits.rs"]
mod limits;
#[path = "session/long.rs"]
mod long;
mod model;
mod numbers;
#[path = "session/pair.rs"]
mod pair;
#[path = "session/program.rs"]
mod program;
#[path = "session/recorded.rs"]
mod recorded;
#[path = "session/show.rs"]
mod show;
#[path = "session/shrink.rs"]
mod shrink;
#[path = "session/tables.rs"]
mod tables;
#[path = "session/tally.rs"]
mod tally;
#[path = "session/unreadable.rs"]
mod unreadable;

use std::path::Path;
use std::process::ExitCode;

use numbers::Numbers;
use pair::{of_model, Pair};
use program::Program;

/// How many random sessions, each whole and damaged.
const SESSIONS: usize = 4000;

/// How many files one run of the program lists.
const FILES: usize = 400;

/// How many sessions come in through a pipe, how long they are at most, and the pieces in which each comes.
const THROUGH_PIPES: usize = 30;
const LONGEST_THROUGH_A_PIPE: usize = 900;
const PIECES: [usize; 6] = [1, 2, 3, 7, 4096, 65_536];

fn main() -> ExitCode {
    let mut words = std::env::args().skip(1);
    let path = words.next().expect("the first word is the program's path");
    let seed = numbers::seed(words.next());
    println!("sessions: seed {seed}");
    let program = Program::new(Path::new(&path), Path::new("target/tests/sessions")).expect("the program is there");
    let mut pair = Pair::new(program);
    let compared = compare_all(&mut pair, &mut Numbers::new(seed));
    println!("sessions: compared {}", pair.tally);
    match compared {
        Ok(()) => {
            println!("sessions: all as the model lists them");
            ExitCode::SUCCESS
        }
        Err(difference) => {
            print!("sessions: {difference}");
            ExitCode::FAILURE
        }
    }
}

fn compare_all(pair: &mut Pair, numbers: &mut Numbers) -> Result<(), String> {
    random(pair, numbers)?;
    through_pipes(pair, numbers)?;
    long::compare_all(pair, numbers)?;
    println!("sessions: {} files at the limits alike", limits::compare_all(pair)?);
    unreadable::compare_all(&pair.program)
}

/// Random files, many in a run.
fn random(pair: &mut Pair, numbers: &mut Numbers) -> Result<(), String> {
    let mut left = 2 * SESSIONS;
    while left > 0 {
        let files: Vec<_> = (0..left.min(FILES)).map(|number| file(numbers, number)).collect();
        pair.compare(&files)?;
        left -= files.len();
    }
    println!("sessions: {} random files alike", 2 * SESSIONS);
    Ok(())
}

/// Every second file is damaged.
fn file(numbers: &mut Numbers, number: usize) -> Vec<u8> {
    let records = draw::session(numbers);
    if number.is_multiple_of(2) {
        records.concat()
    } else {
        damage::damaged(numbers, records)
    }
}

/// Files that come in through a pipe, whole and in pieces.
fn through_pipes(pair: &Pair, numbers: &mut Numbers) -> Result<(), String> {
    for number in 0..THROUGH_PIPES {
        let mut file = file(numbers, number);
        file.truncate(LONGEST_THROUGH_A_PIPE);
        for piece in PIECES {
            pair.compare_one(&file, &of_model(&file), |program, file| program.list_input(file, piece))
                .map_err(|difference| format!("in pieces of {piece} bytes: {difference}"))?;
        }
    }
    println!("sessions: {THROUGH_PIPES} random files alike through a pipe, in pieces of {PIECES:?} bytes");
    Ok(())
}
