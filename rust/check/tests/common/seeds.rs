//! Runs of random calls.

use super::random::Random;

/// Prints the seed of a run that fails.
struct Shown<'a> {
    what: &'a str,
    seed: u64,
}

impl Drop for Shown<'_> {
    fn drop(&mut self) {
        if std::thread::panicking() {
            eprintln!("{}: it failed with seed {}", self.what, self.seed);
        }
    }
}

/// Runs a test with each of so many seeds.
pub fn each_seed(what: &str, seeds: u64, run: impl Fn(&mut Random)) {
    for seed in 1..=seeds {
        let _shown = Shown { what, seed };
        run(&mut Random::new(seed));
    }
}
