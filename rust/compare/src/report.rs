//! What a test prints when the two differ: where, and a short list of events
//! that shows it.

use level_archive::EVENT_BYTES;

use crate::pair::{Difference, Pair};
use crate::shrink::shrink;
use crate::subject::Subject;
use crate::tally::Tally;
use crate::watch::Watch;

/// Takes a list of events into fresh subjects: one by one into one, and all of 32
/// bytes at once into another.
pub fn check<S: Subject>(start: impl Fn() -> S, events: &[Vec<u8>]) -> Result<(), Difference> {
    let fresh = || Pair::over(start()).expect("a test starts with a well-formed table");
    let mut tally = Tally::default();
    let mut watch = Watch::new(&mut tally);
    let mut pair = fresh();
    for event in events {
        let answer = pair.step(event)?;
        watch.see(event, &answer)?;
        pair.compare_states()?;
    }
    let whole: Vec<&[u8]> = events.iter().map(Vec::as_slice).collect();
    let whole: Vec<&[u8]> = whole.into_iter().filter(|event| event.len() == EVENT_BYTES).collect();
    let mut pair = fresh();
    pair.run(&whole.concat())?;
    pair.compare_states()
}

/// The seed, the difference, and the shortest list that was found to differ.
pub fn report<S: Subject>(
    seed: u64,
    difference: &Difference,
    start: impl Fn() -> S,
    events: &[Vec<u8>],
) -> String {
    let again = format!("LEVELS_SEED={seed} LEVELS_RUNS=1 shows it: {difference}\n");
    if check(&start, events).is_ok() {
        return again + "the same events one by one, and all at once, show no difference";
    }
    let short = shrink(events, |events| check(&start, events).is_err());
    let last = check(&start, &short).expect_err("it was shrunk to a list that differs");
    let lines = short.iter().map(|event| format!("  {event:?}\n")).collect::<String>();
    format!("{again}shortest list found, {} events:\n{lines}{last}", short.len())
}
