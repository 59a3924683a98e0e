//! The seed and the number of lists, from the environment.
//!
//! LEVELS_SEED is a number, or `clock` for another seed each time; LEVELS_RUNS
//! is the number of lists. Without them a test is the same every time.

use std::env;
use std::io::{self, Write};
use std::time::SystemTime;

/// A test's seed and number of lists.
#[derive(Clone, Copy, Debug)]
pub struct Settings {
    /// The first seed; list n has the seed after n more.
    pub seed: u64,
    /// How many lists.
    pub runs: u64,
}

impl Settings {
    /// From the environment, told on standard error even where a test's output
    /// is kept back.
    pub fn of(test: &str, usual_runs: u64) -> Settings {
        let seed = match env::var("LEVELS_SEED").as_deref() {
            Ok("clock") => clock(),
            Ok(text) => text.parse().expect("LEVELS_SEED is a number or clock"),
            Err(_) => 1,
        };
        let runs = env::var("LEVELS_RUNS").ok();
        let runs = runs.map_or(usual_runs, |text| text.parse().expect("LEVELS_RUNS is a number"));
        // A test that has no standard error is no worse a test.
        let _ = writeln!(io::stderr(), "{test}: LEVELS_SEED={seed} LEVELS_RUNS={runs}");
        Settings { seed, runs }
    }

    /// The seeds of the lists.
    pub fn seeds(&self) -> impl Iterator<Item = u64> + use<> {
        let first = self.seed;
        (0..self.runs).map(move |number| first.wrapping_add(number))
    }
}

fn clock() -> u64 {
    let since = SystemTime::now().duration_since(SystemTime::UNIX_EPOCH);
    since.map_or(1, |since| since.as_nanos() as u64 % 1_000_000_000_000)
}
