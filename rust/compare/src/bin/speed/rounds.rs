//! Rounds: the rows take turns, so that what disturbs one disturbs all.

use std::time::Duration;

use level_archive::EVENT_BYTES;

use crate::rows::{RUN_STRETCH, Row};
use crate::scene::Scene;

/// The time of each row: for each of its stretches the median over the rounds,
/// after one round that isn't counted; and these together.
pub fn medians(scene: &Scene, rounds: usize, rows: fn(&Scene) -> Vec<Row>) -> Vec<Duration> {
    let number = round(scene, rows(scene)).len();
    let rounds: Vec<_> = (0..rounds).map(|_| round(scene, rows(scene))).collect();
    let of_row = |row: usize| rounds.iter().map(|round| &round[row][..]).collect::<Vec<_>>();
    (0..number).map(|row| together(&of_row(row))).collect()
}

/// For each row the times of all its stretches.
fn round(scene: &Scene, mut rows: Vec<Row>) -> Vec<Vec<Duration>> {
    let mut times = vec![Vec::new(); rows.len()];
    for events in scene.events.chunks(RUN_STRETCH * EVENT_BYTES) {
        for (row, times) in rows.iter_mut().zip(&mut times) {
            times.extend(row(events));
        }
    }
    times
}

/// The medians of all stretches together.
fn together(rounds: &[&[Duration]]) -> Duration {
    let stretches = rounds.first().map_or(0, |round| round.len());
    let one = |at: usize| median(rounds.iter().map(|round| round[at]).collect());
    (0..stretches).map(one).sum()
}

/// The middle one; there must be one.
pub fn median(mut times: Vec<Duration>) -> Duration {
    times.sort();
    times[times.len() / 2]
}
