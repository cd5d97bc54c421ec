//! Plain Rust as a program: lists each session file that is named, or else what comes in.

#[path = "../tests/model/mod.rs"]
mod model;
mod quick;

use std::fs::File;
use std::io::{self, Read};
use std::process::ExitCode;

use quick::session;

fn main() -> ExitCode {
    let mut names = std::env::args().skip(1).peekable();
    if names.peek().is_none() {
        return told("standard input", list(io::stdin().lock()));
    }
    let mut code = ExitCode::SUCCESS;
    for name in names {
        if told(&name, File::open(&name).and_then(list)) == ExitCode::FAILURE {
            code = ExitCode::FAILURE;
        }
    }
    code
}

/// Writes the listing of a file.
fn list(file: impl Read) -> io::Result<()> {
    session::list(file, io::stdout().lock())
}

/// Tells of a file that can't be read, or of a listing that can't be written.
fn told(name: &str, listed: io::Result<()>) -> ExitCode {
    match listed {
        Ok(()) => ExitCode::SUCCESS,
        Err(error) => {
            eprintln!("{name}: {error}");
            ExitCode::FAILURE
        }
    }
}
