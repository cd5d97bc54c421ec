//! Differences told as session files, which `./replay` lists.

// Each test uses a part of it.
#![allow(dead_code)]

#[path = "session/probes.rs"]
mod probes;
#[path = "session/reached.rs"]
pub mod reached;
#[path = "session/recorded.rs"]
pub mod recorded;
#[path = "session/shrink.rs"]
pub mod shrink;
#[path = "session/written.rs"]
pub mod written;

use std::fs;

use crate::library;
use crate::model::registers::STORE_WORDS;
use crate::model::session::{self, OUTPUT_WORDS};
use crate::model::step::{Rooms, LISTED, NORMAL_BYTES, OVERLAY_BYTES, STOPPED, TEXT_BYTES};
use crate::model::windows::TABLE_BYTES;

/// Records as the smallest file that library and model still list differently, printed as a case and kept under a name.
/// What they don't list is probed: words of the store, and what waits. None where nothing of it differs.
pub fn told(name: &str, records: &[Vec<u8>], words: &[usize]) -> Option<String> {
    let unended = records.strip_suffix(&[recorded::END.to_vec()]).unwrap_or(records);
    let probed = [unended, &probes::probes(words)].concat();
    let file = [records.concat(), probed.concat()].into_iter().find(|file| differs(file))?;
    let file = ended(shrink::smallest(&file, differs));
    let path = format!("target/tests/{name}.session");
    let kept = fs::write(&path, &file).map_or_else(|error| format!("{path}: {error}"), |()| format!("kept as {path}"));
    let case = written::case(name, "As the model lists it.", &file, &of_model(&file));
    let library = written::lines(&of_library(&file));
    Some(format!("as a session file, {kept}:\n{case}but the library lists\n{library}"))
}

/// The file with an end record, where it still differs with it.
fn ended(file: Vec<u8>) -> Vec<u8> {
    let ended = [&file[..], &recorded::END].concat();
    if !file.ends_with(&recorded::END) && differs(&ended) && of_model(&ended).len() < of_model(&file).len() {
        ended
    } else {
        file
    }
}

fn differs(file: &[u8]) -> bool {
    of_library(file) != of_model(file)
}

/// What the model lists of a file.
pub fn of_model(file: &[u8]) -> Vec<u8> {
    let mut listing = Vec::new();
    session::list(file, &mut listing).expect("bytes in memory are read, and a listing in memory is written");
    listing
}

/// What the library lists of a file, step by step.
pub fn of_library(file: &[u8]) -> Vec<u8> {
    let mut file = file.to_vec();
    let (mut store, mut output) = (vec![0; STORE_WORDS], vec![0; OUTPUT_WORDS]);
    let (mut table, mut normal, mut overlay) = (vec![0; TABLE_BYTES], vec![0; NORMAL_BYTES], vec![0; OVERLAY_BYTES]);
    let mut text = vec![0; TEXT_BYTES];
    let (mut held, mut place, mut listing) = (library::fresh_session(), 0, Vec::new());
    for _ in 0..=file.len() {
        let rooms = Rooms {
            store: &mut store,
            table: &mut table,
            normal: &mut normal,
            overlay: &mut overlay,
            output: &mut output,
            text: &mut text,
        };
        let stepped = library::step(held, &mut file, place, 1, rooms);
        if matches!(stepped.status, LISTED | STOPPED) {
            listing.extend_from_slice(&text[..stepped.text.min(TEXT_BYTES)]);
        }
        if stepped.status != LISTED {
            break;
        }
        (held, place) = (stepped.held, stepped.next);
    }
    listing
}
