//! Numbers that look random, from a seed.

// Each test uses a part of it.
#![allow(dead_code)]

/// The seed that a word of the command says.
pub fn seed(word: Option<String>) -> u64 {
    word.and_then(|word| word.parse().ok()).expect("a word of the command is the seed, a number")
}

/// As many as that, or a tenth where an emulator runs the test: `tools/x86_64` says so.
pub fn so_many(count: u64) -> u64 {
    if std::env::var_os("BULITAMPAW_X86_64").is_some() {
        count / 10
    } else {
        count
    }
}

pub struct Numbers(u64);

impl Numbers {
    pub fn new(seed: u64) -> Self {
        Self(2 * seed + 1)
    }

    pub fn next(&mut self) -> u32 {
        self.0 ^= self.0 << 13;
        self.0 ^= self.0 >> 7;
        self.0 ^= self.0 << 17;
        (self.0 >> 32) as u32
    }

    pub fn below(&mut self, bound: u32) -> u32 {
        self.next() % bound
    }

    pub fn one_in(&mut self, times: u32) -> bool {
        self.below(times) == 0
    }

    pub fn pick<T: Copy>(&mut self, from: &[T]) -> T {
        from[self.below(from.len() as u32) as usize]
    }
}
