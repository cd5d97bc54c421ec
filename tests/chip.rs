//! Register writes and reads, the colour queue and dots: the proved library against the plain model, call by call.

mod answers;
#[path = "chip/draw.rs"]
mod draw;
mod files;
mod library;
mod model;
mod numbers;
#[path = "chip/pair.rs"]
mod pair;
#[path = "chip/sequences.rs"]
mod sequences;
#[path = "chip/show.rs"]
mod show;
#[path = "chip/shrink.rs"]
mod shrink;
mod states;
#[path = "chip/tally.rs"]
mod tally;
#[path = "chip/vectors/mod.rs"]
mod vectors;

use std::process::ExitCode;

use model::chip::State;
use model::registers::STORE_WORDS;
use numbers::Numbers;
use pair::{Answer, Call, Compared, Pair};
use sequences::Sequence;

/// How many calls of each kind at least.
const CALLS: u64 = 1_000_000;

fn main() -> ExitCode {
    let seed = numbers::seed(std::env::args().nth(1));
    println!("chip from Rust: seed {seed}");
    let mut pair = Pair::new();
    let compared = compare_all(&mut pair, &mut Numbers::new(seed));
    println!("chip from Rust: compared {}", pair.tally);
    match compared {
        Ok(()) => {
            println!("chip from Rust: all as the model answers");
            ExitCode::SUCCESS
        }
        Err(difference) => {
            print!("chip from Rust: {difference}");
            ExitCode::FAILURE
        }
    }
}

fn compare_all(pair: &mut Pair, numbers: &mut Numbers) -> Result<(), String> {
    if library::fresh() != State::FRESH {
        return Err(format!("the fresh state is {}\n", library::fresh()));
    }
    let vectors = vectors::all();
    for (what, vector) in &vectors {
        vector(pair).map_err(|difference| format!("{what}: {difference}"))?;
    }
    println!("chip from Rust: {} vectors alike, {}", vectors.len(), std::mem::take(&mut pair.tally));
    let mut sequences = 0;
    let calls = numbers::so_many(CALLS);
    while pair.tally.least() < calls {
        let sequence = draw::sequence(numbers);
        sequence.run(pair).map_err(|_| smallest(sequence))?;
        sequences += 1;
    }
    println!("chip from Rust: {sequences} random sequences alike");
    runs_while_writes_wait(pair, numbers).map_err(|difference| format!("while writes wait: {difference}"))?;
    long_runs(pair, numbers).map_err(|difference| format!("nothing waits: {difference}"))
}

/// A sequence that shows a difference, made small, and the difference; as a session file too where one shows it.
fn smallest(sequence: Sequence) -> String {
    let shrunk = sequence.shrunk();
    match shrunk.run(&mut Pair::new()) {
        Ok(()) => format!("a difference that doesn't come again, {shrunk}"),
        Err((_, difference)) => {
            let words: Vec<_> = difference.words.iter().filter_map(|word| word.index.try_into().ok()).collect();
            let file = shrunk.records().and_then(|records| files::told("chip", &records, &words));
            format!("{shrunk}{difference}{}", file.unwrap_or_default())
        }
    }
}

/// Runs of some hundred thousand dots, in which the queue may drain; the model makes them dot by dot too.
fn runs_while_writes_wait(pair: &mut Pair, numbers: &mut Numbers) -> Compared<()> {
    for _ in 0..400 {
        let (mut state, fill) = (draw::good_state(numbers), draw::fill(numbers));
        let count = numbers.below(1 << 18);
        pair.begin(state, fill);
        let answer = pair.lend(STORE_WORDS, Call::Dots { count })?;
        let mut store = vec![0; STORE_WORDS];
        let last = state.dots(&mut store, count).expect("a good state isn't refused");
        assert!(last.map_or(Answer::DONE, Answer::of_signals) == answer && state == pair.state, "dot by dot");
    }
    Ok(())
}

/// Runs up to the longest there can be, whole and in two parts.
fn long_runs(pair: &mut Pair, numbers: &mut Numbers) -> Compared<()> {
    let chosen = [65_536, 16_777_216, 16_777_217, 1 << 31, u32::MAX].into_iter().flat_map(|count| [count; 3]);
    let random: Vec<u32> = (0..10).map(|_| numbers.next() | 1).collect();
    for count in chosen.chain(random) {
        let mut state = draw::good_state(numbers);
        state.queue.waiting = 0;
        let first = numbers.below(count);
        pair.begin(state, draw::fill(numbers));
        let whole = pair.lend(STORE_WORDS, Call::Dots { count })?;
        let after = pair.state;
        pair.state = state;
        pair.lend(STORE_WORDS, Call::Dots { count: first })?;
        let parts = pair.lend(STORE_WORDS, Call::Dots { count: count - first })?;
        assert!(whole == parts && after == pair.state, "{count} dots in two parts");
    }
    Ok(())
}
