//! Whole sessions, through the programs. A listing is thrown away.

use std::fs;
use std::process::{Command, Stdio};
use std::time::Instant;

use crate::measure::{Row, Timed, Works, MILLISECONDS};
use crate::recordings;

/// Where the session files are put.
const FOLDER: &str = "target/bench";

/// The bytes of the session of rows alone.
const ROWS_BYTES: usize = 200_000_000;

/// The sessions that are measured: what each is, the name of its file, and the file.
const SESSIONS: [(&str, &str, fn() -> Vec<u8>); 4] = [
    ("program, 2,000 lines in 8-8-8, a row for each", "lines", recordings::lines),
    ("program, 2,000 lines in 8-8-8, one row for all", "same_row", recordings::same_row),
    ("program, a million writes, dots and short rows", "records", recordings::records),
    ("program, 200 MB of rows", "rows", || recordings::rows_alone(ROWS_BYTES)),
];

/// Each session by both programs, whose paths are given.
pub fn rows(proved: &str, plain: &str) -> Vec<Row> {
    SESSIONS.map(|named| row(named, proved.to_string(), plain.to_string())).into()
}

/// A session that both programs list the same.
fn row((what, name, session): (&str, &str, fn() -> Vec<u8>), proved: String, plain: String) -> Row {
    let file = format!("{FOLDER}/{name}.session");
    Row::new(
        what.to_string(),
        MILLISECONDS,
        move || {
            fs::write(&file, session()).expect("the file is written");
            (proved, plain, file)
        },
        |(proved, plain, file)| listing(proved, file) == listing(plain, file),
        |(proved, plain, file)| Works { proved: timed(&proved, &file), plain: timed(&plain, &file) },
    )
}

/// What a program lists of a file.
fn listing(program: &str, file: &str) -> Vec<u8> {
    let output = Command::new(program).arg(file).output().expect("the program runs");
    assert!(output.status.success() && !output.stdout.is_empty(), "{program}: {}", output.status);
    output.stdout
}

/// How long a program takes for a file so many times, from its start to its end.
fn timed(program: &str, file: &str) -> Timed {
    let (program, file) = (program.to_string(), file.to_string());
    Box::new(move |times| {
        let clock = Instant::now();
        for _ in 0..times {
            let status = Command::new(&program).arg(&file).stdout(Stdio::null()).status().expect("the program runs");
            assert!(status.success(), "{program}: {status}");
        }
        clock.elapsed()
    })
}
