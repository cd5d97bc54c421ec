//! How a sequence of steps that shows a difference is made small.

use crate::files::{of_model, shrink};
use crate::model::step::Held;
use crate::pair::{Difference, Pair};
use crate::rooms::Fill;
use crate::sequences::{Given, Sequence, Whim};

/// The sequence with plain steps and a plain start where they will do, and a small file.
pub fn smallest(mut sequence: Sequence) -> Sequence {
    make_start_plainer(&mut sequence);
    if !sequence.whims.is_empty() {
        begin_at_the_last(&mut sequence);
        make_start_plainer(&mut sequence);
    }
    if let Some((number, _)) = difference(&sequence) {
        sequence.whims.truncate(number + 1);
    }
    for number in (0..sequence.whims.len()).rev() {
        let mut candidate = sequence.clone();
        candidate.whims.remove(number);
        if !replace_if_differs(&mut sequence, candidate) {
            plainer_whim(&mut sequence, number);
        }
    }
    let file = shrink::smallest(&sequence.file, |file| {
        difference(&Sequence { file: file.to_vec(), ..sequence.clone() }).is_some()
    });
    Sequence { file, ..sequence }
}

/// Starts from the session before the step that differs, where that step alone differs too.
fn begin_at_the_last(sequence: &mut Sequence) {
    let Some((number, difference)) = difference(sequence) else { return };
    let Given { held, bytes, place, last, .. } = difference.given;
    let damage = sequence.whims.get(number).map_or(Vec::new(), |whim| whim.damage.clone());
    let whims = vec![Whim { before: 0, last, damage, ..Whim::PLAIN }];
    let file = bytes.get(place..).unwrap_or_default().to_vec();
    replace_if_differs(sequence, Sequence { start: held, file, whims, ..sequence.clone() });
}

fn make_start_plainer(sequence: &mut Sequence) {
    for plainer in PLAINER {
        let mut candidate = sequence.clone();
        plainer(&mut candidate);
        replace_if_differs(sequence, candidate);
    }
}

/// The difference that a sequence shows, and how many steps are alike before it.
pub fn difference(sequence: &Sequence) -> Option<(usize, Box<Difference>)> {
    sequence.run(&mut Pair::new(), of_model).err()
}

/// Ways to make the start plainer.
const PLAINER: [fn(&mut Sequence); 6] = [
    |sequence| sequence.whims.clear(),
    |sequence| sequence.fill = Fill::Zeros,
    |sequence| sequence.start = Held::FRESH,
    |sequence| sequence.start.records = 0,
    |sequence| sequence.start = Held { table: 0, normal: 0, overlay: 0, ..sequence.start },
    |sequence| sequence.whims.iter_mut().for_each(|whim| whim.damage.clear()),
];

/// Makes one step plainer, part by part.
fn plainer_whim(sequence: &mut Sequence, number: usize) {
    let whims: [fn(&mut Whim); 5] = [
        |whim| whim.damage.clear(),
        |whim| whim.damage.truncate(1),
        |whim| whim.damage = whim.damage.split_off(1.min(whim.damage.len())),
        |whim| whim.before = Whim::PLAIN.before,
        |whim| (whim.more, whim.last) = (Whim::PLAIN.more, Whim::PLAIN.last),
    ];
    for plainer in whims {
        let mut candidate = sequence.clone();
        plainer(&mut candidate.whims[number]);
        replace_if_differs(sequence, candidate);
    }
}

fn replace_if_differs(sequence: &mut Sequence, candidate: Sequence) -> bool {
    let differs = difference(&candidate).is_some();
    if differs {
        *sequence = candidate;
    }
    differs
}
