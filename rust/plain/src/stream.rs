//! Pseudo-random lists of events, steered so that much happens in them.
//!
//! A stream keeps an archive of its own, to know what its events have made and
//! to choose the next: clocks that let PUTs through, deliveries that catch up,
//! pages that are read and ended. A share of the events is left unsteered and
//! a share is damaged. The same seed and style give the same events.

mod choose;
mod damage;
mod help;

use std::collections::VecDeque;

use crate::archive::Archive;
use crate::event::code;
use crate::limits::{EVENT_BYTES, KEYS, LAST_TIME, RECORDS};
use crate::make::Bytes;
use crate::random::Random;

/// The most bytes that an event of a wrong length has.
const LONGEST: usize = 48;

/// What kind of stream is wanted.
#[derive(Clone, Copy, PartialEq, Eq, Debug)]
pub struct Style {
    /// The number of sites, 1 to 4.
    pub sites: usize,
    /// The number of partitions, 1 to 4.
    pub partitions: usize,
    /// About how many events will be taken; PUTs are spread over them.
    pub length: usize,
    /// How far PUTs would fill the nodes by then, in hundredths.
    pub fill: usize,
    /// How many events in a thousand are damaged.
    pub damage: usize,
    /// Whether damaged events may have a wrong length.
    pub lengths: bool,
}

impl Style {
    /// The style for a file that the bench reads: 4 sites, 4 partitions.
    pub fn bench(length: usize) -> Style {
        Style { sites: 4, partitions: 4, length, fill: 105, damage: 30, lengths: false }
    }

    /// Any style for a list of about `length` events.
    pub fn any(random: &mut Random, length: usize) -> Style {
        Style {
            sites: *random.one_of(&[1, 2, 2, 3, 3, 3, 4, 4, 4, 4]),
            partitions: random.between(1, 4),
            length,
            fill: random.between(50, 250),
            damage: *random.one_of(&[0, 20, 60, 200]),
            lengths: true,
        }
    }
}

/// A stream of events.
pub struct Stream {
    random: Random,
    style: Style,
    archive: Archive,
    /// Events meant to end a wait, with the waiting one behind them.
    plan: VecDeque<Bytes>,
    /// The keys that are mostly used.
    keys: Vec<u8>,
    /// The least time that clocks are set to.
    dawn: u64,
    /// How many of four deliveries are left for later at present.
    lag: usize,
    place: usize,
    puts: usize,
    event: [u8; LONGEST],
}

impl Stream {
    /// A stream from a seed; the style's site and partition numbers must be
    /// 1 to 4.
    pub fn new(seed: u64, style: Style) -> Stream {
        let mut random = Random::new(seed);
        let archive = Archive::new(style.sites, style.partitions).expect("1 to 4");
        let few = random.between(2, 12);
        let keys = (0..few).map(|_| random.below(KEYS) as u8).collect();
        let late = LAST_TIME - random.below(4 * style.length + 8) as u64;
        let dawn = *random.one_of(&[0, 0, 100, 1 << 32, late]);
        Stream {
            random,
            style,
            archive,
            plan: VecDeque::new(),
            keys,
            dawn,
            lag: 0,
            place: 0,
            puts: 0,
            event: [0; LONGEST],
        }
    }

    /// The next event. A stream never ends.
    pub fn next_event(&mut self) -> &[u8] {
        let follow = self.random.chance(900);
        let planned = if follow { self.plan.pop_front() } else { None };
        let event = planned.unwrap_or_else(|| self.choose());
        self.event[..EVENT_BYTES].copy_from_slice(&event);
        let mut length = EVENT_BYTES;
        if self.random.chance(self.style.damage) {
            length = self.damage();
        }
        self.note(length);
        &self.event[..length]
    }

    /// Takes an event of 32 bytes that comes from elsewhere, so that the stream
    /// goes on behind it.
    pub fn take(&mut self, event: &Bytes) {
        self.event[..EVENT_BYTES].copy_from_slice(event);
        self.note(EVENT_BYTES);
    }

    /// The archive that the stream's events have made.
    pub fn archive(&self) -> &Archive {
        &self.archive
    }

    /// Takes the event into the stream's own archive, and plans for a wait.
    fn note(&mut self, length: usize) {
        self.place += 1;
        let answer = self.archive.step(&self.event[..length]);
        if answer.number == 0 && self.event[0] == code::PUT {
            self.puts += 1;
        }
        if answer.number == 3 && self.plan.len() < 8 && self.random.chance(650) {
            self.help();
        }
    }

    /// Whether one more PUT is due at this place of the stream.
    fn is_put_due(&self) -> bool {
        let room = RECORDS * self.style.partitions * self.style.fill / 100;
        self.puts <= 2 + room * self.place / self.style.length.max(1)
    }
}
