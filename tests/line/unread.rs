//! A line's answer rests on what it reads alone: all else may change.

use crate::case::Case;
use crate::files;
use crate::model::reads::Reads;
use crate::numbers::Numbers;
use crate::pair::{Answer, Pair};

/// What a changed cell may get: some thousand numbers, gone through from any of them on.
pub struct Noise(Vec<u32>);

impl Noise {
    pub fn new(numbers: &mut Numbers) -> Self {
        Self((0..8192).map(|_| numbers.next()).collect())
    }

    /// Numbers without end, or nothing but ones or zeros.
    fn from_anywhere(&self, numbers: &mut Numbers) -> impl Iterator<Item = u32> + '_ {
        let (set, cleared) = numbers.pick(&[(0, 0), (u32::MAX, 0), (0, u32::MAX), (0, 0)]);
        let (before, after) = self.0.split_at(numbers.below(8192) as usize);
        after.iter().chain(before).cycle().map(move |any| any & !cleared | set)
    }
}

/// Changes all that a case, whose answer is known, doesn't read, and compares the library's answer with the one it had.
pub fn compare(
    pair: &mut Pair,
    case: &Case,
    answer: &Answer,
    noise: &Noise,
    numbers: &mut Numbers,
) -> Result<(), String> {
    let reads = case.reads();
    let changed = changed(case, &reads, noise.from_anywhere(numbers));
    assert!(changed.reads() == reads, "the model reads other cells of\n{changed}than of\n{case}");
    let (of_model, output) = changed.of_model();
    let (number, place) = of_model.err().unwrap_or((0, 0));
    let wanted = carried_over(case, answer, &changed);
    assert!(wanted == Answer { number, place, output }, "the model rests on more than it lists:\n{changed}and\n{case}");
    pair.tally.count_unread(number);
    let library = pair.of_library(&changed);
    if library.answer == wanted && library.state == case.state && library.touched.is_empty() {
        return Ok(());
    }
    let changed = fewest_changes(pair, case, changed, answer);
    let library = pair.of_library(&changed).answer;
    let file = changed.records().and_then(|records| files::told("unread", &records, &[])).unwrap_or_default();
    let (case, bits) = (case.read_alone(), changed_bits(case, changed));
    Err(format!("{answer}\n  becomes {library}\n  in {case}where bits change that aren't read, {bits}{file}"))
}

/// A case that is the same in all that the first one reads, and has something else in all that it doesn't.
fn changed(case: &Case, reads: &Reads, mut noise: impl Iterator<Item = u32>) -> Case {
    let mut changed = case.clone();
    for ((word, mask), any) in changed.store.iter_mut().zip(&reads.store).zip(&mut noise) {
        *word = *word & mask | any & !mask;
    }
    for (part, masks) in BYTES.into_iter().zip([&reads.table, &reads.normal, &reads.overlay]) {
        for ((byte, mask), any) in part(&mut changed).iter_mut().zip(masks).zip(&mut noise) {
            *byte = *byte & mask | any as u8 & !mask;
        }
    }
    for (word, any) in changed.output.iter_mut().zip(&mut noise) {
        *word = any;
    }
    changed
}

/// The bits in which two cases differ, as a case.
fn changed_bits(case: &Case, mut changed: Case) -> Case {
    let mut before = case.clone();
    for (word, before) in changed.store.iter_mut().zip(&before.store) {
        *word ^= before;
    }
    for part in BYTES {
        for (byte, before) in part(&mut changed).iter_mut().zip(part(&mut before)) {
            *byte ^= *before;
        }
    }
    changed
}

/// The parts that are bytes.
const BYTES: [fn(&mut Case) -> &mut Vec<u8>; 3] =
    [|case| &mut case.table, |case| &mut case.normal, |case| &mut case.overlay];

/// The answer that a changed case has to have: the first one's, with the words that stay in the output.
fn carried_over(case: &Case, answer: &Answer, changed: &Case) -> Answer {
    let drawn = if answer.number == 0 { case.width() as usize } else { 0 };
    Answer { output: [&answer.output[..drawn], &changed.output[drawn..]].concat(), ..answer.clone() }
}

/// A changed case that still shows a difference, with every word and byte put back that can be.
fn fewest_changes(pair: &mut Pair, case: &Case, mut changed: Case, answer: &Answer) -> Case {
    let mut before = case.clone();
    let mut keep_if_differs = |changed: &mut Case, candidate: Case| {
        if pair.of_library(&candidate).answer != carried_over(case, answer, &candidate) {
            *changed = candidate;
        }
    };
    for index in 0..before.store.len() {
        let mut candidate = changed.clone();
        candidate.store[index] = before.store[index];
        keep_if_differs(&mut changed, candidate);
    }
    for part in BYTES {
        for index in 0..part(&mut before).len() {
            let mut candidate = changed.clone();
            part(&mut candidate)[index] = part(&mut before)[index];
            keep_if_differs(&mut changed, candidate);
        }
    }
    changed
}
