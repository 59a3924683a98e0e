//! What is looked at in events and answers alone.

use plain::Answer;
use plain::causal::Observer;

use crate::chains::Chains;
use crate::pair::Difference;
use crate::tally::Tally;

/// Watches one list of events on a fresh table.
pub struct Watch<'a> {
    observer: Observer,
    chains: Chains,
    tally: &'a mut Tally,
    place: usize,
}

impl<'a> Watch<'a> {
    /// A watch that counts into a tally.
    pub fn new(tally: &'a mut Tally) -> Watch<'a> {
        Watch { observer: Observer::new(), chains: Chains::default(), tally, place: 0 }
    }

    /// Takes the next event and its answer; a breach of demand 3 is an error.
    pub fn see(&mut self, event: &[u8], answer: &Answer) -> Result<(), Difference> {
        self.place += 1;
        self.tally.add(event, answer);
        self.chains.see(event, answer);
        let breach = |violation| format!("demand 3: {violation:?}");
        let seen = self.observer.see(event, answer);
        seen.map_err(|violation| Difference { place: self.place, what: breach(violation) })
    }

    /// How many readings were shown that end a chain of three gauges.
    pub fn chains_of_three(&self) -> u64 {
        self.chains.of_three
    }
}
