//! A list of events through both implementations, in stretches: most by `run`,
//! some one by one by `step`, with the states compared after each.

use level_archive::EVENT_BYTES;
use plain::random::Random;

use crate::pair::{Difference, Pair};
use crate::subject::Subject;
use crate::watch::Watch;

/// Takes events into a pair.
pub struct Follow<'a, S> {
    /// Both implementations.
    pub pair: Pair<S>,
    /// What looks at events and answers.
    pub watch: Watch<'a>,
    random: Random,
    /// Events for the next `run`.
    stretch: Vec<u8>,
    /// How many bytes it may have.
    limit: usize,
}

impl<'a, S: Subject> Follow<'a, S> {
    /// Follows a list with a pair.
    pub fn new(pair: Pair<S>, watch: Watch<'a>, seed: u64) -> Follow<'a, S> {
        Follow { pair, watch, random: Random::new(!seed), stretch: Vec::new(), limit: 0 }
    }

    /// Takes the next event. One that `run` would cut in two, and one in ten
    /// others, is stepped.
    pub fn take(&mut self, event: &[u8]) -> Result<(), Difference> {
        let whole = (1..=EVENT_BYTES).contains(&event.len());
        if !whole || self.random.chance(100) {
            self.finish()?;
            let answer = self.pair.step(event)?;
            return self.watch.see(event, &answer);
        }
        self.stretch.extend_from_slice(event);
        if event.len() < EVENT_BYTES || self.stretch.len() >= self.limit {
            self.finish()?;
        }
        Ok(())
    }

    /// Runs what was gathered, and compares the states.
    pub fn finish(&mut self) -> Result<(), Difference> {
        let answers = self.pair.run(&self.stretch)?;
        for (event, answer) in self.stretch.chunks(EVENT_BYTES).zip(&answers) {
            self.watch.see(event, answer)?;
        }
        self.stretch.clear();
        self.limit = EVENT_BYTES * *self.random.one_of(&[1, 5, 20, 100, 400]);
        self.pair.compare_states()
    }
}
