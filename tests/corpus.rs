//! The session files of `replay`: that the model lists each as was worked out by hand, and that the crate has them all.
//! With the word `write` it writes the crate's files.

#[path = "session/cases.rs"]
mod cases;
mod model;
#[path = "session/recorded.rs"]
mod recorded;
#[path = "session/written.rs"]
mod written;

use std::collections::{BTreeMap, BTreeSet};
use std::path::{Path, PathBuf};
use std::process::ExitCode;
use std::{env, fs, io};

use cases::Case;

const CASES: &str = "tests/session/cases";
const CRATE: &str = "crates/replay";

fn main() -> ExitCode {
    let write = env::args().nth(1).is_some_and(|word| word == "write");
    match all_cases().and_then(|cases| compare_all(&cases, write)) {
        Ok(told) => {
            println!("corpus: {told}");
            ExitCode::SUCCESS
        }
        Err(difference) => {
            println!("corpus: {difference}");
            ExitCode::FAILURE
        }
    }
}

fn compare_all(cases: &[Case], write: bool) -> Result<String, String> {
    for case in cases {
        listed_as_by_hand(case)?;
        written_and_read(case)?;
    }
    let files = crate_files(cases);
    if write {
        write_all(&files)?;
    }
    compare_files(&files)?;
    let bytes: usize = cases.iter().map(|case| case.bytes.len()).sum();
    Ok(format!("{} session files of {bytes} bytes in all, as the model and the crate have them", cases.len()))
}

/// The cases of all subjects, none with the name of another.
fn all_cases() -> Result<Vec<Case>, String> {
    let mut all = Vec::new();
    let mut names = BTreeSet::new();
    for path in files_in(Path::new(CASES))? {
        let in_file = |fault: String| format!("{}: {fault}", path.display());
        let text = fs::read_to_string(&path).map_err(|error| in_file(error.to_string()))?;
        for case in cases::parse(&text).map_err(in_file)? {
            if !plain(&case.name) || !names.insert(case.name.clone()) {
                return Err(in_file(format!("{}: not a plain name, or one that another case has", case.name)));
            }
            all.push(case);
        }
    }
    Ok(all)
}

/// Whether a name is of small letters, digits and underscores.
fn plain(name: &str) -> bool {
    !name.is_empty() && name.bytes().all(|byte| matches!(byte, b'a'..=b'z' | b'0'..=b'9' | b'_'))
}

fn listed_as_by_hand(case: &Case) -> Result<(), String> {
    let mut listing = Vec::new();
    model::session::list(&case.bytes[..], &mut listing)
        .expect("bytes in memory are read, and a listing in memory is written");
    let listing = String::from_utf8(listing).expect("a listing is text");
    if listing == case.listing {
        return Ok(());
    }
    let Case { name, shows, listing: by_hand, .. } = case;
    Err(format!("{name}: {shows}\nby hand:\n{by_hand}the model:\n{listing}"))
}

/// A case that is printed can be read again.
fn written_and_read(case: &Case) -> Result<(), String> {
    let text = written::case(&case.name, &case.shows, &case.bytes, case.listing.as_bytes());
    match &cases::parse(&text)?[..] {
        [again] if again.bytes == case.bytes && again.listing == case.listing => Ok(()),
        _ => Err(format!("{}: not the same when it is written and read again:\n{text}", case.name)),
    }
}

/// What the crate's files hold, by their paths.
fn crate_files(cases: &[Case]) -> BTreeMap<PathBuf, Vec<u8>> {
    let file_name = |case: &Case| format!("{}.session", case.name);
    let folder = Path::new(CRATE);
    let args = cases.iter().map(|case| file_name(case) + "\n").collect::<String>();
    let stdout = cases.iter().map(|case| &case.listing[..]).collect::<String>();
    let mut files: BTreeMap<_, _> =
        cases.iter().map(|case| (folder.join("data").join(file_name(case)), case.bytes.clone())).collect();
    files.insert(folder.join("args"), args.into_bytes());
    files.insert(folder.join("stdout"), stdout.into_bytes());
    files
}

/// Writes the files, and removes session files that no case has any more.
fn write_all(files: &BTreeMap<PathBuf, Vec<u8>>) -> Result<(), String> {
    let data = Path::new(CRATE).join("data");
    fs::create_dir_all(&data).map_err(|error| format!("{}: {error}", data.display()))?;
    for path in files_in(&data)?.iter().filter(|path| !files.contains_key(*path)) {
        fs::remove_file(path).map_err(|error| format!("{}: {error}", path.display()))?;
    }
    for (path, bytes) in files {
        fs::write(path, bytes).map_err(|error| format!("{}: {error}", path.display()))?;
    }
    Ok(())
}

fn compare_files(files: &BTreeMap<PathBuf, Vec<u8>>) -> Result<(), String> {
    for (path, bytes) in files {
        let found = fs::read(path).map_err(|error| format!("{}: {error}", path.display()))?;
        if found != *bytes {
            return Err(format!("{}: not what the cases say", path.display()));
        }
    }
    match files_in(&Path::new(CRATE).join("data"))?.iter().find(|path| !files.contains_key(*path)) {
        Some(path) => Err(format!("{}: no case has it", path.display())),
        None => Ok(()),
    }
}

/// The paths of all files in a folder, by their names.
fn files_in(folder: &Path) -> Result<BTreeSet<PathBuf>, String> {
    let in_folder = |error: io::Error| format!("{}: {error}", folder.display());
    let entries = fs::read_dir(folder).map_err(in_folder)?;
    entries.map(|entry| entry.map(|entry| entry.path()).map_err(in_folder)).collect()
}
