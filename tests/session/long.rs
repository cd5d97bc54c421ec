//! Long random sessions, whose records lie across every place at which a reader may have to read on.

use crate::draw;
use crate::model::records::MOST_DOTS;
use crate::model::windows::TABLE_BYTES;
use crate::numbers::Numbers;
use crate::pair::{of_model, Pair};
use crate::program::Program;
use crate::recorded;

/// How many of them, and of how many short ones each is made.
const LONG: usize = 4;
const SHORT: usize = 700;

/// Of how many bytes the pieces are that come in through a pipe.
const PIECES: [usize; 3] = [4096, 65_537, 1_000_003];

pub fn compare_all(pair: &Pair, numbers: &mut Numbers) -> Result<(), String> {
    let mut bytes = 0;
    for _ in 0..LONG {
        let file = session(numbers);
        let model = of_model(&file);
        pair.compare_one(&file, &model, Program::list)?;
        for piece in PIECES {
            pair.compare_one(&file, &model, |program, file| program.list_input(file, piece))?;
        }
        bytes += file.len();
    }
    println!("sessions: {LONG} long random files alike, {bytes} bytes in all, by name and through a pipe");
    Ok(())
}

/// The records of many sessions but those at which a run stops, and then the end.
fn session(numbers: &mut Numbers) -> Vec<u8> {
    let mut table_bytes = 0;
    let mut file = Vec::new();
    for record in (0..SHORT).flat_map(|_| draw::session(numbers)) {
        let stops = match &record[..] {
            [0, ..] => true,
            [2, _, _, count @ ..] => *count > MOST_DOTS.to_be_bytes()[..],
            [3, _, _, bytes @ ..] => table_bytes + bytes.len() > TABLE_BYTES,
            _ => false,
        };
        if !stops {
            table_bytes += if record[0] == 3 { record.len() - 3 } else { 0 };
            file.extend(record);
        }
    }
    file.extend(recorded::END);
    file
}
