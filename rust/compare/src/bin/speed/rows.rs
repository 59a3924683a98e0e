//! What is measured on a scene: each row goes through the same events.

use std::hint::black_box;
use std::time::{Duration, Instant};

use level_archive::{ANSWER_BYTES, Archive, EVENT_BYTES};
use plain::table;

use crate::scene::Scene;

/// The events of a stretch: short, so that few stretches are disturbed by what
/// else the machine does.
const STRETCH: usize = 25;
/// The events of one call of `run`, which checks the table once for all of them.
pub const RUN_STRETCH: usize = 2_500;

/// One way through the events of a scene: takes the next `RUN_STRETCH` of them and
/// gives the time of each stretch.
pub type Row = Box<dyn FnMut(&[u8]) -> Vec<Duration>>;

/// The core's `step`, which checks the table each time.
pub const STEP: usize = 0;
/// A plain Rust step that makes the same check over the same bytes.
pub const PLAIN_STEP: usize = 1;
/// The core's `run`, which checks the table once.
pub const RUN: usize = 2;
/// The independent implementation over structs, which has nothing to check.
pub const STRUCTS: usize = 3;
/// The core's check alone: `step` of a code that isn't one.
pub const CHECK: usize = 4;
/// The plain Rust check alone.
pub const PLAIN_CHECK: usize = 5;

/// The names of the rows.
pub const NAMES: [&str; 6] = [
    "core: checked step",
    "plain: step with the same check",
    "core: run",
    "plain: over structs, no check",
    "core: the check alone",
    "plain: the check alone",
];

/// All rows at a scene's start, in the order of their names.
pub fn all(scene: &Scene) -> Vec<Row> {
    vec![
        row(STRETCH, core(scene), step, |_, _| ()),
        row(STRETCH, both(scene), plain_step, follow),
        row(RUN_STRETCH, core(scene), run, |_, _| ()),
        row(RUN_STRETCH, both(scene), run_structs, |_, _| ()),
        row(STRETCH, both(scene), check, follow),
        row(STRETCH, both(scene), plain_check, follow),
    ]
}

/// The two rows without a check at each event: `run`, and over structs.
pub fn unchecked(scene: &Scene) -> Vec<Row> {
    vec![
        row(RUN_STRETCH, core(scene), run, |_, _| ()),
        row(RUN_STRETCH, both(scene), run_structs, |_, _| ()),
    ]
}

/// The core at a scene's start.
fn core(scene: &Scene) -> Archive {
    Archive::over(scene.table.clone())
}

/// The same state as structs and, for what only checks the bytes, in the core.
struct Both {
    archive: plain::Archive,
    core: Archive,
}

fn both(scene: &Scene) -> Both {
    Both { archive: scene.archive.clone(), core: core(scene) }
}

/// Brings the bytes to the end of a stretch, which isn't timed: so the check looks
/// at the bytes that the core has there.
fn follow(both: &mut Both, events: &[u8]) {
    both.core.run_into(events, &mut vec![0; events.len() / EVENT_BYTES * ANSWER_BYTES]);
}

fn step(core: &mut Archive, events: &[u8], _: &mut [u8]) -> u64 {
    each(events, |event| core.step_bytes(event).number())
}

/// The whole check over the table's bytes, then the step over structs.
fn plain_step(both: &mut Both, events: &[u8], _: &mut [u8]) -> u64 {
    each(events, |event| {
        let formed = table::well_formed(black_box(both.core.as_bytes()));
        if formed { both.archive.step(event).number } else { 24 }
    })
}

fn run(core: &mut Archive, events: &[u8], answers: &mut [u8]) -> u64 {
    core.run_into(events, answers) as u64
}

/// Events over structs, with answers of 16 bytes as `run` gives them.
fn run_structs(both: &mut Both, events: &[u8], answers: &mut [u8]) -> u64 {
    let places = answers.chunks_exact_mut(ANSWER_BYTES);
    for (event, answer) in events.chunks_exact(EVENT_BYTES).zip(places) {
        answer.copy_from_slice(&both.archive.step(event).to_bytes());
    }
    answers[0].into()
}

/// A code that isn't one is refused right after the check.
fn check(both: &mut Both, events: &[u8], _: &mut [u8]) -> u64 {
    each(events, |_| both.core.step_bytes(&[0; EVENT_BYTES]).number())
}

fn plain_check(both: &mut Both, events: &[u8], _: &mut [u8]) -> u64 {
    each(events, |_| table::well_formed(black_box(both.core.as_bytes())).into())
}

/// The ways give the same answers and the same table.
pub fn agree(scene: &Scene) {
    let mut answers = vec![0; scene.events.len() / EVENT_BYTES * ANSWER_BYTES];
    let mut of_structs = answers.clone();
    let mut both = both(scene);
    run(&mut both.core, &scene.events, &mut answers);
    run_structs(&mut both, &scene.events, &mut of_structs);
    assert!(answers == of_structs, "the answers differ");
    let said = table::read(both.core.as_bytes()).expect("a well-formed table");
    assert_eq!(table::difference(&said, &both.archive), None);
}

/// Each event by itself; the sum of what is told keeps all of them.
fn each(events: &[u8], mut step: impl FnMut(&[u8]) -> u8) -> u64 {
    events.chunks_exact(EVENT_BYTES).map(|event| u64::from(step(event))).sum()
}

/// Takes events in stretches of a length and times each; `after` isn't timed.
fn row<S: 'static>(
    length: usize,
    mut state: S,
    work: fn(&mut S, &[u8], &mut [u8]) -> u64,
    after: fn(&mut S, &[u8]),
) -> Row {
    let mut answers = vec![0; length * ANSWER_BYTES];
    let mut time = move |events: &[u8]| {
        let start = Instant::now();
        black_box(work(&mut state, events, &mut answers));
        let took = start.elapsed();
        after(&mut state, events);
        took
    };
    Box::new(move |events| events.chunks(length * EVENT_BYTES).map(&mut time).collect())
}
