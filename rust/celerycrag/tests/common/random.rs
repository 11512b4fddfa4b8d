//! A small source of random numbers, the seed, and the number of cases.

use reference::random::SplitMix;

/// Numbers for one case.
pub struct Random(SplitMix);

impl Random {
    /// The numbers of one case: the same seed and case give the same numbers.
    pub fn new(seed: u64, case: u64) -> Random {
        let mut start = SplitMix(seed);
        Random(SplitMix(
            start.bits() ^ case.wrapping_mul(0xd6e8_feb8_6659_fd93),
        ))
    }

    pub fn next(&mut self) -> u64 {
        self.0.bits()
    }

    /// A number below k; for tests the small bias does not matter.
    pub fn below(&mut self, k: usize) -> usize {
        (self.next() % k as u64) as usize
    }

    /// A number from low to high, both included.
    pub fn within(&mut self, low: usize, high: usize) -> usize {
        low + self.below(high - low + 1)
    }

    /// True once in k times.
    pub fn one_in(&mut self, k: usize) -> bool {
        self.below(k) == 0
    }

    pub fn pick<T: Copy>(&mut self, from: &[T]) -> T {
        from[self.below(from.len())]
    }

    /// So many bytes, each below k.
    pub fn bytes(&mut self, count: usize, k: usize) -> Vec<u8> {
        (0..count).map(|_| self.below(k) as u8).collect()
    }

    pub fn shuffle<T>(&mut self, list: &mut [T]) {
        for last in (1..list.len()).rev() {
            list.swap(last, self.below(last + 1));
        }
    }
}

/// A number from the environment.
fn setting(name: &str, otherwise: u64) -> u64 {
    match std::env::var(name) {
        Ok(text) => text
            .parse()
            .unwrap_or_else(|_| panic!("{name} is no number: {text}")),
        Err(_) => otherwise,
    }
}

/// Runs a test's cases, each on random numbers of its own.
///
/// CELERYCRAG_CASES says how many random tables are filed, 10,000 where it is
/// not set, and each test takes so many thousandths of that; CELERYCRAG_SEED is
/// the seed. Both are printed, and on a failure also the case at fault.
pub fn cases(name: &str, thousandths: u64, mut case: impl FnMut(&mut Random)) {
    let seed = setting("CELERYCRAG_SEED", 1);
    let count = (thousandths * setting("CELERYCRAG_CASES", 10_000)).div_ceil(1_000);
    println!("{name}: {count} cases, CELERYCRAG_SEED={seed}");
    for number in 0..count {
        let told = Told { name, seed, number };
        case(&mut Random::new(seed, number));
        drop(told);
    }
}

/// Tells the case at fault where a test fails.
struct Told<'a> {
    name: &'a str,
    seed: u64,
    number: u64,
}

impl Drop for Told<'_> {
    fn drop(&mut self) {
        if std::thread::panicking() {
            let Told { name, seed, number } = self;
            println!("{name} fails in case {number}, CELERYCRAG_SEED={seed}");
        }
    }
}
