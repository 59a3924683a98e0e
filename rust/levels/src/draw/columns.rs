//! How far to the right each event stands: behind the one before, and so far that no
//! label touches another on its line.

use std::collections::BTreeMap;

use super::mark::{Lane, Mark};
use super::style::{GAP, LEFT, STEP};

/// The events' places.
pub struct Columns {
    places: Vec<i32>,
    width: i32,
}

impl Columns {
    /// The places of events with these marks.
    pub fn of(marks: &[Vec<Mark>]) -> Columns {
        let mut taken: BTreeMap<Lane, i32> = BTreeMap::new();
        let mut places = Vec::new();
        let mut last = LEFT;
        for marks in marks {
            let rooms = || marks.iter().flat_map(Mark::room);
            let free = |(lane, left, _)| taken.get(&lane).unwrap_or(&LEFT) + GAP + left;
            let x = rooms().map(free).fold(last + STEP, i32::max);
            taken.extend(rooms().map(|(lane, _, right)| (lane, x + right)));
            places.push(x);
            last = x;
        }
        let end = taken.values().copied().fold(last, i32::max);
        Columns { places, width: end + 2 * STEP }
    }

    /// The place of an event.
    pub fn x(&self, event: usize) -> i32 {
        self.places.get(event).copied().unwrap_or(LEFT)
    }

    /// The width of it all.
    pub fn width(&self) -> i32 {
        self.width
    }
}
