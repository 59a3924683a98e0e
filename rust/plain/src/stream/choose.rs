//! Chooses the next event of a stream.

use super::Stream;
use crate::limits::*;
use crate::make::{self, Bytes};
use crate::session::Session;
use crate::vector::greatest;

/// How many events in a thousand are chosen without a look at the archive.
const BLIND: usize = 60;

impl Stream {
    /// An event that mostly does something.
    pub(super) fn choose(&mut self) -> Bytes {
        if self.random.chance(10) {
            self.lag = self.random.below(4);
        }
        match self.random.below(100) {
            0..=3 => self.choose_open(),
            4..=5 => make::close(self.session(|session| session.open)),
            6..=15 => self.choose_clock(),
            16..=31 => self.choose_get(),
            32..=43 => self.choose_put(),
            44..=49 => self.choose_begin(),
            50..=65 => self.choose_read(),
            66..=70 => self.choose_end(),
            71..=77 => self.choose_beat(),
            _ if self.random.below(4) < self.lag => self.choose_beat(),
            _ => self.choose_deliver(),
        }
    }

    /// An OPEN, or mostly a GET when no session is left to open.
    fn choose_open(&mut self) -> Bytes {
        let session = self.session(|session| !session.open);
        if self.archive.session(session.into()).open && self.random.chance(800) {
            self.choose_get()
        } else {
            make::open(session, self.site())
        }
    }

    fn choose_clock(&mut self) -> Bytes {
        let (site, partition) = (self.site(), self.partition());
        let clock = self.archive.node(site.into(), partition.into()).clock;
        let (near, beside) = (self.site(), self.partition());
        let other = self.archive.node(near.into(), beside.into()).clock;
        let time = match self.random.below(20) {
            0 => clock.saturating_sub(1 + self.random.below(3) as u64),
            1 => clock,
            2..=7 => clock.max(other),
            _ => clock.max(self.dawn) + self.random.below(4) as u64,
        };
        make::clock(site, partition, time.min(LAST_TIME))
    }

    fn choose_get(&mut self) -> Bytes {
        make::get(self.session(|session| session.open && session.page.is_none()), self.key())
    }

    /// A PUT, or the CLOCK that lets it through with the PUT planned behind
    /// it; a GET when no PUT is due.
    fn choose_put(&mut self) -> Bytes {
        let session = self.session(|session| session.open && session.page.is_none());
        let key = self.key();
        let (quality, level) = (self.random.below(3) as u8, self.level());
        let put = make::put(session, key, quality, level);
        let Session { site, vector, .. } = *self.archive.session(session.into());
        let partition = self.archive.partition_of(key);
        let node = self.archive.node(site, partition);
        let least = greatest(&vector).max(node.vector[site]) + 1;
        if !self.is_put_due() {
            return if node.clock < least { put } else { make::get(session, key) };
        }
        if node.clock >= least || least > LAST_TIME || self.random.chance(250) {
            return put;
        }
        let time = least.max(self.dawn) + self.random.below(3) as u64;
        self.plan.push_front(put);
        make::clock(site as u8, partition as u8, time.min(LAST_TIME))
    }

    fn choose_begin(&mut self) -> Bytes {
        let session = self.session(|session| session.open && session.page.is_none());
        let count = self.random.between(1, PAGE_KEYS);
        let mut keys = Vec::with_capacity(PAGE_KEYS);
        for _ in 0..count {
            let key = self.key();
            if !keys.contains(&key) || self.random.chance(BLIND) {
                keys.push(key);
            }
        }
        make::begin(session, self.partition(), &keys)
    }

    fn choose_read(&mut self) -> Bytes {
        let session = self.session(|session| session.page.is_some_and(|page| page.unread != 0));
        let unread = self.archive.session(session.into()).page.map_or(0, |page| page.unread);
        let key = self.random.one_where(KEYS, |key| unread >> key & 1 == 1);
        match key {
            Some(key) if !self.random.chance(BLIND) => make::read(session, key as u8),
            _ => make::read(session, self.key()),
        }
    }

    fn choose_end(&mut self) -> Bytes {
        make::end(self.session(|session| session.page.is_some_and(|page| page.unread == 0)))
    }

    /// A BEAT, half of the time with a CLOCK before it.
    fn choose_beat(&mut self) -> Bytes {
        let (site, partition) = (self.site(), self.partition());
        let beat = make::beat(site, partition);
        let clock = self.archive.node(site.into(), partition.into()).clock;
        if self.random.chance(500) || clock == LAST_TIME {
            return beat;
        }
        self.plan.push_front(beat);
        make::clock(site, partition, clock.max(self.dawn) + 1)
    }

    fn choose_deliver(&mut self) -> Bytes {
        let (sites, partitions) = (self.style.sites, self.style.partitions);
        let apart = |number: usize| {
            let (from, rest) = (number % sites, number / sites);
            (from, rest % sites, rest / sites)
        };
        let archive = &self.archive;
        let waiting = |number| {
            let (from, to, partition) = apart(number);
            !archive.channel(from, to, partition).is_empty()
        };
        let all = sites * sites * partitions;
        let lawful = |number| apart(number).0 != apart(number).1;
        let number = if self.random.chance(BLIND) {
            self.random.one_where(all, lawful)
        } else {
            self.random.one_where(all, waiting)
        };
        let (from, to, partition) = apart(number.unwrap_or_else(|| self.random.below(all)));
        make::deliver(from as u8, to as u8, partition as u8)
    }

    /// Mostly a session that fits.
    fn session(&mut self, fits: impl Fn(&Session) -> bool) -> u8 {
        let archive = &self.archive;
        let found = if self.random.chance(BLIND) {
            None
        } else {
            self.random.one_where(SESSIONS, |number| fits(archive.session(number)))
        };
        found.unwrap_or_else(|| self.random.below(SESSIONS)) as u8
    }

    fn site(&mut self) -> u8 {
        self.random.below(self.style.sites) as u8
    }

    fn partition(&mut self) -> u8 {
        self.random.below(self.style.partitions) as u8
    }

    /// Mostly one of the stream's few keys.
    fn key(&mut self) -> u8 {
        if self.random.chance(BLIND) {
            self.random.below(KEYS) as u8
        } else {
            *self.random.one_of(&self.keys)
        }
    }

    fn level(&mut self) -> i32 {
        match self.random.below(20) {
            0 => LOWEST_LEVEL,
            1 => HIGHEST_LEVEL,
            2..=5 => self.random.between(0, 200) as i32 - 100,
            _ => self.random.below((HIGHEST_LEVEL - LOWEST_LEVEL) as usize) as i32 + LOWEST_LEVEL,
        }
    }
}
