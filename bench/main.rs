//! How long lines, dots, writes, reads and sessions take: the proved library and program beside plain Rust, as one
//! table. The words are the paths of the proved program and of the plain one. Without words, as on Arm, no programs are
//! measured. Where the variable `BENCH_ONLY` has a text, only rows with that text in their name are.

#[path = "../tests/answers.rs"]
mod answers;
#[path = "../tests/by_value.rs"]
mod by_value;
mod calls;
#[allow(dead_code)]
#[path = "../tests/line/case.rs"]
mod case;
mod check;
mod chip;
#[path = "../tests/session/damage.rs"]
mod damage;
#[path = "../tests/files.rs"]
mod files;
#[path = "../tests/library.rs"]
mod library;
mod line;
#[path = "../tests/line/draw.rs"]
mod line_draw;
mod measure;
#[path = "../tests/model/mod.rs"]
mod model;
#[path = "../tests/numbers.rs"]
mod numbers;
mod pair;
mod plain;
mod programs;
mod quick;
mod recordings;
#[allow(dead_code)]
#[path = "../tests/step/rooms.rs"]
mod rooms;
#[allow(dead_code)]
#[path = "../tests/step/sequences.rs"]
mod sequences;
#[path = "../tests/session/draw.rs"]
mod session;
#[path = "../tests/states.rs"]
mod states;
mod step;
#[path = "../tests/step/draw.rs"]
mod step_draw;
#[path = "../tests/session/tables.rs"]
mod tables;

use files::recorded;

fn main() {
    let words: Vec<String> = std::env::args().skip(1).collect();
    let sessions = match &words[..] {
        [] => None,
        [proved, plain] => Some(programs::rows(proved, plain)),
        _ => panic!("the words are the paths of both programs, or none"),
    };
    check::all();
    measure::print_head();
    for row in line::rows().chain(chip::rows()).chain(step::rows()).chain(sessions.into_iter().flatten()) {
        row.print();
    }
}
