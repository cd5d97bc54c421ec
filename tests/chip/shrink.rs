//! How a sequence that shows a difference is made small.

use crate::model::beam::Position;
use crate::model::chip::State;
use crate::model::queue::{Queue, Waiting};
use crate::model::registers::STORE_WORDS;
use crate::pair::{Call, Fill, Pair};
use crate::sequences::{Sequence, Step};

impl Sequence {
    /// A sequence that still shows a difference: a plainer start and plainer calls where they will do, and none that can be
    /// dropped.
    pub fn shrunk(mut self) -> Self {
        self.cut();
        self.begin_at_the_last();
        self.make_start_plainer();
        let mut size = self.steps.len();
        while size > 0 {
            self.drop_runs_of(size);
            size /= 2;
        }
        for number in (0..self.steps.len()).rev() {
            for plainer in PLAINER_STEP {
                self.make_plainer(number, plainer);
            }
        }
        self.make_start_plainer();
        self
    }

    /// Starts from the state before the call that differs, where that call alone differs too.
    fn begin_at_the_last(&mut self) {
        let Err((number, difference)) = self.run(&mut Pair::new()) else { return };
        let steps = vec![Step { damage: Vec::new(), ..self.steps[number].clone() }];
        self.replace_if_differs(Self { start: difference.before, steps, ..self.clone() });
    }

    fn make_start_plainer(&mut self) {
        for plainer in PLAINER {
            let mut candidate = self.clone();
            plainer(&mut candidate);
            self.replace_if_differs(candidate);
        }
        for word in 0..9 {
            let mut candidate = self.clone();
            candidate.start.control[word] = 0;
            self.replace_if_differs(candidate);
        }
    }

    /// Makes one step plainer as often as that will do.
    fn make_plainer(&mut self, number: usize, plainer: fn(&mut Step)) {
        loop {
            let mut candidate = self.clone();
            let Some(step) = candidate.steps.get_mut(number) else { return };
            plainer(step);
            if candidate.steps[number] == self.steps[number] || !self.replace_if_differs(candidate) {
                return;
            }
        }
    }

    /// Drops what comes after the first difference; answers whether there is one.
    fn cut(&mut self) -> bool {
        let Err((number, _)) = self.run(&mut Pair::new()) else { return false };
        self.steps.truncate(number + 1);
        true
    }

    fn replace_if_differs(&mut self, mut candidate: Self) -> bool {
        let differs = candidate.cut();
        if differs {
            *self = candidate;
        }
        differs
    }

    fn drop_runs_of(&mut self, size: usize) {
        let mut from = 0;
        while from < self.steps.len() {
            let mut candidate = self.clone();
            candidate.steps.drain(from..self.steps.len().min(from + size));
            if !self.replace_if_differs(candidate) {
                from += size;
            }
        }
    }
}

/// Ways to make the start plainer.
const PLAINER: [fn(&mut Sequence); 11] = [
    |sequence| sequence.fill = Fill::Zeros,
    |sequence| sequence.start = State::FRESH,
    |sequence| sequence.start.queue = Queue::EMPTY,
    |sequence| sequence.start.queue.waiting = sequence.start.queue.waiting.min(1),
    |sequence| sequence.start.queue.waiting = sequence.start.queue.waiting.min(2),
    |sequence| sequence.start.at = Position { x: 0, y: 0 },
    |sequence| sequence.start.at.x = 0,
    |sequence| sequence.start.at.y = 0,
    |sequence| sequence.start.control = [0; 9],
    |sequence| sequence.start.control[6..].fill(0),
    |sequence| {
        let Queue { waiting, slots } = &mut sequence.start.queue;
        slots.iter_mut().skip(*waiting as usize).for_each(|slot| *slot = Waiting::NONE);
    },
];

/// Ways to make a call plainer.
const PLAINER_STEP: [fn(&mut Step); 7] = [
    |step| step.damage.clear(),
    |step| step.length = STORE_WORDS,
    |step| step.call = with_numbers(step.call, |address| address & 0x00FF_FFFF, |value| value),
    |step| step.call = with_numbers(step.call, |address| address, |_| 0),
    |step| step.call = with_numbers(step.call, |address| address, |value| value & value.wrapping_sub(1)),
    |step| step.call = with_numbers(step.call, |address| address, |count| count / 2),
    |step| step.call = with_numbers(step.call, |address| address, |count| count.saturating_sub(1)),
];

/// A call with another address, and another value or count.
fn with_numbers(call: Call, of_address: fn(u32) -> u32, of_value: fn(u32) -> u32) -> Call {
    match call {
        Call::Write { address, value } => Call::Write { address: of_address(address), value: of_value(value) },
        Call::Read { address } => Call::Read { address: of_address(address) },
        Call::Dot => Call::Dot,
        Call::Dots { count } => Call::Dots { count: of_value(count) },
    }
}
