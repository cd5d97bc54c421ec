//! The two questions, asked of the proved library and of the plain model.

mod answers;
mod library;
mod model;
mod numbers;

use std::process::ExitCode;

use numbers::Numbers;

/// How many random calls of each kind at least.
const CALLS: u32 = 1_000_000;

/// How many calls were compared.
#[derive(Default)]
struct Asked {
    entries: u64,
    signals: u64,
}

impl Asked {
    fn entry(&mut self, entry: u32, depth: u32) -> Result<(), String> {
        self.entries += 1;
        let (library, model) = (library::entry_defined(entry, depth), u32::from(model::colour::defined(entry, depth)));
        if library == model {
            return Ok(());
        }
        let entry = shrunk(entry, depth);
        Err(format!("entry {entry:#x} at depth {depth}: library {library}, model {model}\n"))
    }

    fn signal(&mut self, on: u32, off: u32, p: u32) -> Result<(), String> {
        self.signals += 1;
        let (library, model) = (library::signal_holds(on, off, p), u32::from(model::timing::in_window(on, off, p)));
        if library == model {
            return Ok(());
        }
        Err(format!("on {on}, off {off}, p {p}: library {library}, model {model}\n"))
    }
}

/// The entry without the bits that a difference doesn't need.
fn shrunk(entry: u32, depth: u32) -> u32 {
    let differs = |entry| library::entry_defined(entry, depth) != u32::from(model::colour::defined(entry, depth));
    let dropped = |entry: u32, bit: u32| Some(entry & !(1 << bit)).filter(|&less| differs(less)).unwrap_or(entry);
    (0..32).rev().fold(entry, dropped)
}

fn main() -> ExitCode {
    let seed = numbers::seed(std::env::args().nth(1));
    println!("questions from Rust: seed {seed}");
    let mut asked = Asked::default();
    let compared = compare_all(&mut asked, &mut Numbers::new(seed));
    println!("questions from Rust: compared {} entries and {} signals", asked.entries, asked.signals);
    match compared {
        Ok(()) => {
            println!("questions from Rust: all as the model answers");
            ExitCode::SUCCESS
        }
        Err(difference) => {
            print!("questions from Rust: {difference}");
            ExitCode::FAILURE
        }
    }
}

fn compare_all(asked: &mut Asked, numbers: &mut Numbers) -> Result<(), String> {
    if library::version() != 1 {
        return Err(format!("the version is {}\n", library::version()));
    }
    for entry in 0..8192 {
        for depth in 0..=64 {
            asked.entry(entry, depth)?;
        }
    }
    for on in 0..24 {
        for off in 0..24 {
            for p in 0..26 {
                asked.signal(on, off, p)?;
            }
        }
    }
    for _ in 0..CALLS {
        let (entry, any) = (numbers.next(), numbers.next());
        asked.entry(entry, numbers.pick(&[16, 16, 32, 32, 0x1_0010, any]))?;
        let (on, off, p) = (numbers.next(), numbers.next(), numbers.next());
        asked.signal(on, off, p)?;
        asked.signal(on, off, numbers.pick(&[on, off, on.wrapping_sub(1), off.wrapping_sub(1)]))?;
        asked.signal(on, numbers.pick(&[on, on.wrapping_add(1), on.wrapping_sub(1)]), p)?;
    }
    Ok(())
}
