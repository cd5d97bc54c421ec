//! Steps of sessions, and whole sessions.

use std::io::{self, Read};

use crate::damage;
use crate::files;
use crate::model::step::Held;
use crate::numbers::Numbers;
use crate::pair::Pair;
use crate::quick;
use crate::recorded;
use crate::rooms::{Fill, RIGHT};
use crate::sequences::Given;
use crate::session;
use crate::step_draw;

/// How many random files are stepped through.
const SEQUENCES: u32 = 2000;

/// How many random files are listed, every second one damaged.
const FILES: u32 = 1000;

/// Steps, some of them lent what they refuse, and listings of files that come in pieces.
pub fn compare(numbers: &mut Numbers) {
    let mut pair = Pair::new();
    cut_records(&mut pair);
    for _ in 0..SEQUENCES {
        let compared = step_draw::sequence(numbers).run(&mut pair, files::of_model);
        if let Err((number, difference)) = compared {
            panic!("step {number}: {difference}");
        }
    }
    for number in 0..FILES {
        let records = session::session(numbers);
        let file = if number % 2 == 0 { records.concat() } else { damage::damaged(numbers, records) };
        let piece = numbers.pick(&[1, 7, 100, 1 << 20]);
        let mut listing = Vec::new();
        quick::session::list(Pieces { file: &file, piece }, &mut listing).expect("bytes in memory are read");
        assert!(listing == files::of_model(&file), "a session of {} bytes is listed otherwise", file.len());
    }
}

/// A record of each tag and one of none, cut anywhere, as the first, the last and one too many.
fn cut_records(pair: &mut Pair) {
    pair.begin(Fill::Zeros);
    let records =
        [0, 8, 4, 5, 5, 5, 2, 0].into_iter().zip(0..).map(|(length, tag)| recorded::record(tag, &[1; 8][..length]));
    for record in records {
        for (length, held_records, last) in cuts(record.len()) {
            let held = Held { records: held_records, ..Held::FRESH };
            let given = Given { held, bytes: record[..length].to_vec(), place: 0, last, lengths: RIGHT };
            if let Err(difference) = pair.lend(&given) {
                panic!("{length} bytes of {record:?}: {difference}");
            }
        }
    }
}

/// Each number of bytes up to one, with each number of records before them, and the file ending or not.
fn cuts(most: usize) -> impl Iterator<Item = (usize, u32, u32)> {
    let records = [0, 999_999, 1_000_000];
    let steps = records.into_iter().flat_map(|records| [(records, 0), (records, 1)]);
    steps.flat_map(move |(records, last)| (0..=most).map(move |length| (length, records, last)))
}

/// A file that comes in pieces of so many bytes at most.
struct Pieces<'a> {
    file: &'a [u8],
    piece: usize,
}

impl Read for Pieces<'_> {
    fn read(&mut self, room: &mut [u8]) -> io::Result<usize> {
        let upto = room.len().min(self.piece);
        self.file.read(&mut room[..upto])
    }
}
