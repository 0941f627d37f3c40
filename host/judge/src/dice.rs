//! Numbers from a seed, and what is made of many seeds: the same for the same seed, on every machine.

use std::iter::from_fn;
use std::panic::resume_unwind;
use std::sync::atomic::{AtomicUsize, Ordering};
use std::thread;

/// What is made of each of these, on all processors; the order is any.
pub fn each<T: Sync, M: Send>(these: &[T], make: impl Fn(&T) -> M + Sync) -> Vec<M> {
    let workers = thread::available_parallelism().map_or(1, |n| n.get());
    // The next that no worker has taken yet, since some take much longer than others.
    let next = AtomicUsize::new(0);
    let share = || from_fn(|| these.get(next.fetch_add(1, Ordering::Relaxed))).map(&make).collect::<Vec<M>>();
    thread::scope(|scope| {
        let all: Vec<_> = (0..workers).map(|_| scope.spawn(share)).collect();
        all.into_iter().flat_map(|worker| worker.join().unwrap_or_else(|cause| resume_unwind(cause))).collect()
    })
}

/// What is made of each seed from 1 on, on all processors; the order is any.
pub fn each_seed<T: Send>(seeds: u64, make: impl Fn(u64) -> T + Sync) -> Vec<T> {
    each_seed_and(&[], seeds, make)
}

/// The same, and of these seeds too, which show something rare: those past the others.
pub fn each_seed_and<T: Send>(rare: &[u64], seeds: u64, make: impl Fn(u64) -> T + Sync) -> Vec<T> {
    let past = rare.iter().copied().filter(|&seed| seed > seeds);
    each(&(1..=seeds).chain(past).collect::<Vec<u64>>(), |&seed| make(seed))
}

/// One seed in so many is tried where the tests are emulated, since each takes some ten times as long there.
const EMULATED: u64 = 8;

// One in so many is tried.
fn one_in() -> u64 {
    std::env::var_os("MACAROOSH_RUNNER").map_or(1, |_| EMULATED)
}

/// So many seeds, or where the tests are emulated a part of them, rounded up; and so of what a test counts of them.
pub fn part_of(seeds: u64) -> u64 {
    (seeds + one_in() - 1) / one_in()
}

/// The bytes for a place, where a test tries every byte in every place: all, or where it is emulated others in each place.
pub fn bytes_at(place: usize) -> impl Iterator<Item = u8> {
    let step = one_in() as usize;
    (0..=255).skip(place % step).step_by(step)
}

/// How many seeds a test tries: what the environment variable says, or so many.
pub fn seeds(variable: &str, otherwise: u64) -> u64 {
    std::env::var(variable).ok().and_then(|number| number.parse().ok()).unwrap_or(otherwise)
}

/// A small generator of numbers (xorshift), so that a seed names its bundles for good.
pub struct Dice(u64);

impl Dice {
    /// The dice of a seed.
    pub fn new(seed: u64) -> Dice {
        Dice(seed.wrapping_mul(0x9E37_79B9_7F4A_7C15) | 1)
    }

    fn roll(&mut self) -> u64 {
        self.0 ^= self.0 << 13;
        self.0 ^= self.0 >> 7;
        self.0 ^= self.0 << 17;
        self.0
    }

    /// A number below `n`.
    pub fn below(&mut self, n: usize) -> usize {
        (self.roll() >> 11) as usize % n.max(1)
    }

    /// A number in `low ..= high`.
    pub fn between(&mut self, low: usize, high: usize) -> usize {
        low + self.below(high - low + 1)
    }

    /// Yes once in `n` times.
    pub fn once_in(&mut self, n: usize) -> bool {
        self.below(n) == 0
    }

    /// A number that is not below `count`, often one that has such a number in its lowest bytes.
    pub fn beyond(&mut self, count: usize) -> u64 {
        let low = self.below(count) as u64;
        match self.below(8) {
            0 => count as u64,
            1 => 255,
            2 => 256 + low,
            3 => (1 << 16) + low,
            4 => (1 << 32) + low,
            5 => (1 << 63) + low,
            6 => u64::MAX,
            _ => self.junk() | count.next_power_of_two() as u64,
        }
    }

    /// Any word, for lent memory.
    pub fn junk(&mut self) -> u64 {
        self.roll()
    }

    /// One of some bytes.
    pub fn one_of(&mut self, bytes: &[u8]) -> u8 {
        bytes[self.below(bytes.len())]
    }
}
