//! Counts which answers came to which codes, and for which sites events waited.

use plain::limits::SITES;
use plain::{Answer, code};

/// For each code, the answers that it can get when the table is well formed and
/// the event has 32 bytes and a lawful code; 11 comes to all of them besides.
pub const CAN_GET: [(u8, &[u8]); 10] = [
    (code::OPEN, &[0, 13]),
    (code::CLOSE, &[0, 12]),
    (code::CLOCK, &[0, 19]),
    (code::GET, &[1, 2, 3, 12, 14]),
    (code::PUT, &[0, 3, 12, 14, 21, 22]),
    (code::BEGIN, &[0, 12, 14, 17]),
    (code::READ, &[1, 2, 3, 12, 15, 16]),
    (code::END, &[0, 12, 15, 18]),
    (code::BEAT, &[0, 21]),
    (code::DELIVER, &[0, 20, 22]),
];

/// How often each number came to each code, and of the waits each site.
#[derive(Clone, Debug)]
pub struct Tally {
    counts: Vec<[u64; 256]>,
    waits: Vec<[u64; SITES]>,
}

impl Default for Tally {
    fn default() -> Tally {
        Tally { counts: vec![[0; 256]; 256], waits: vec![[0; SITES]; 256] }
    }
}

impl Tally {
    /// Counts one event; an event without bytes counts as of code 0.
    pub fn add(&mut self, event: &[u8], answer: &Answer) {
        let code = event.first().copied().unwrap_or(0);
        self.counts[code as usize][answer.number as usize] += 1;
        if answer.number == 3 {
            self.waits[code as usize][answer.source as usize] += 1;
        }
    }

    /// How many events there were.
    pub fn events(&self) -> u64 {
        self.counts.iter().flatten().sum()
    }

    /// How often a number came.
    pub fn of_number(&self, number: u8) -> u64 {
        self.counts.iter().map(|row| row[number as usize]).sum()
    }

    /// How often a number came to a code.
    pub fn of(&self, code: u8, number: u8) -> u64 {
        self.counts[code as usize][number as usize]
    }

    /// How often events of a code waited for each site.
    pub fn waits(&self, code: u8) -> [u64; SITES] {
        self.waits[code as usize]
    }

    /// The answers of [`CAN_GET`], with 11, that came fewer times than `least`.
    pub fn rare(&self, least: u64) -> Vec<(u8, u8)> {
        let pairs = CAN_GET.iter().flat_map(|(code, numbers)| {
            numbers.iter().chain(&[11]).map(move |number| (*code, *number))
        });
        pairs.filter(|(code, number)| self.of(*code, *number) < least).collect()
    }
}
