//! Rows of the table: best times of the proved code and of plain Rust. On Arm the proved code is the library that
//! `bench/native` compiles for Arm.

use std::hint::black_box;
use std::time::{Duration, Instant};

/// How often each row is measured, its columns in turn; the best time of each counts.
const REPETITIONS: u32 = 25;

/// How long one repetition takes at least: as many times the work as it needs.
const REPETITION: Duration = Duration::from_millis(5);

/// The variable that says which rows are measured: those with its text in their name.
const ONLY: &str = "BENCH_ONLY";

/// What a row's times are shown in, and how many nanoseconds that is.
pub type Unit = (&'static str, f64);

/// For calls.
pub const NANOSECONDS: Unit = ("ns", 1.0);

/// For sessions.
pub const MILLISECONDS: Unit = ("ms", 1e6);

/// How long some work takes so many times.
pub type Timed = Box<dyn Fn(u32) -> Duration>;

/// What a row compares.
pub struct Works {
    pub proved: Timed,
    pub plain: Timed,
}

/// A row, whose works are made where it is measured.
pub struct Row {
    what: String,
    unit: Unit,
    works: Box<dyn FnOnce() -> Works>,
}

/// Says what the columns are.
pub fn print_head() {
    println!("best of {REPETITIONS} repetitions; ratio: proved / plain Rust; calls and steps go by value in both");
    print_columns("what", &["unit", "proved", "plain Rust", "ratio"].map(String::from));
}

impl Row {
    /// A row whose works come of a subject, and which is not to be measured unless `same` finds that they do the same.
    pub fn new<T: 'static>(
        what: String,
        unit: Unit,
        subject: impl FnOnce() -> T + 'static,
        same: impl FnOnce(&T) -> bool + 'static,
        works: impl FnOnce(T) -> Works + 'static,
    ) -> Self {
        let name = what.clone();
        let works = move || {
            let subject = subject();
            assert!(same(&subject), "{name}: not the same work");
            works(subject)
        };
        Self { what, unit, works: Box::new(works) }
    }

    /// Measures, and prints what came of it, unless other rows are asked for.
    pub fn print(self) {
        if std::env::var(ONLY).is_ok_and(|only| !self.what.contains(&only)) {
            return;
        }
        let (unit, nanoseconds) = self.unit;
        let Works { proved, plain } = (self.works)();
        let [proved, plain] = best_times([proved, plain]);
        let numbers = [proved / nanoseconds, plain / nanoseconds, proved / plain].map(shown);
        print_columns(&self.what, &[&[unit.to_string()], &numbers[..]].concat());
    }
}

/// How long some work on a subject takes so many times, each time from what the time before left.
pub fn timed<T: Clone + 'static>(subject: &T, work: fn(&mut T) -> u32) -> Timed {
    let subject = subject.clone();
    Box::new(move |times| {
        let mut subject = subject.clone();
        let clock = Instant::now();
        for _ in 0..times {
            black_box(work(black_box(&mut subject)));
        }
        clock.elapsed()
    })
}

/// Prints a line of the table.
fn print_columns(what: &str, columns: &[String]) {
    print!("{what:<68}");
    for column in columns {
        print!("{column:>12}");
    }
    println!();
}

/// A number with about three digits that count.
fn shown(number: f64) -> String {
    match number {
        100.0.. => format!("{number:.0}"),
        0.01.. => format!("{number:.2}"),
        _ => format!("{number:.1e}"),
    }
}

/// The best time of each work once, in nanoseconds.
fn best_times(works: [Timed; 2]) -> [f64; 2] {
    let counts = works.each_ref().map(times_in_repetition);
    let mut best = [f64::INFINITY; 2];
    for _ in 0..REPETITIONS {
        for ((best, work), count) in best.iter_mut().zip(&works).zip(counts) {
            *best = best.min(work(count).as_secs_f64() * 1e9 / f64::from(count));
        }
    }
    best
}

/// How many times the work fills a repetition.
fn times_in_repetition(work: &Timed) -> u32 {
    let mut times = 1;
    while work(times) < REPETITION {
        times *= 2;
    }
    times
}
