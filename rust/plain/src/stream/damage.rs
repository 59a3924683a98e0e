//! Damages the next event of a stream.

use super::{LONGEST, Stream};
use crate::limits::*;

impl Stream {
    /// Damages the event and gives its length.
    pub(super) fn damage(&mut self) -> usize {
        match self.random.below(if self.style.lengths { 8 } else { 7 }) {
            0 => self.damage_bit(),
            1 => self.damage_byte(),
            2 => self.damage_code(),
            3 => self.damage_all(),
            4 => self.damage_unused(),
            5 | 6 => self.damage_range(),
            _ => return self.damage_length(),
        }
        EVENT_BYTES
    }

    /// Flips any bit.
    fn damage_bit(&mut self) {
        let at = self.random.below(EVENT_BYTES);
        self.event[at] ^= 1 << self.random.below(8);
    }

    /// Sets any byte to anything.
    fn damage_byte(&mut self) {
        let at = self.random.below(EVENT_BYTES);
        self.event[at] = self.random.bits() as u8;
    }

    /// Sets the code to one that isn't one, or to another one.
    fn damage_code(&mut self) {
        let any = self.random.bits() as u8;
        let other = self.random.between(1, 10) as u8;
        self.event[0] = *self.random.one_of(&[0, 11, 12, 255, any, other]);
    }

    /// Sets all bytes to anything; half of the time with a lawful code.
    fn damage_all(&mut self) {
        for at in 0..EVENT_BYTES {
            self.event[at] = self.random.bits() as u8;
        }
        if self.random.chance(500) {
            self.event[0] = self.random.between(1, 10) as u8;
        }
    }

    /// Sets a byte that is zero, mostly one of an unused field.
    fn damage_unused(&mut self) {
        let event = &self.event;
        let zero = self.random.one_where(EVENT_BYTES - 1, |at| event[at + 1] == 0);
        if let Some(at) = zero {
            self.event[at + 1] = 1;
        }
    }

    /// Sets a field to the last lawful or the first unlawful number.
    fn damage_range(&mut self) {
        let past = self.random.below(2);
        let (sites, partitions) = (self.style.sites, self.style.partitions);
        match self.random.below(12) {
            0 => self.event[1] = (sites - 1 + past) as u8,
            1 => self.event[2] = (partitions - 1 + past) as u8,
            2 => self.event[3] = (SESSIONS - 1 + past) as u8,
            3 => self.event[4] = (KEYS - 1 + past) as u8,
            4 => self.event[5] = LAST_QUALITY + past as u8,
            5 => self.event[6] = (sites - 1 + past) as u8,
            6 => self.event[7] = [0, 9][past],
            7 => self.event[8..16].copy_from_slice(&(LAST_TIME + 1).to_le_bytes()),
            8 => self.set_level(LOWEST_LEVEL - past as i32),
            9 => self.set_level(HIGHEST_LEVEL + past as i32),
            10 => self.event[20 + self.random.below(PAGE_KEYS)] = (KEYS - 1 + past) as u8,
            _ => self.event[6] = self.event[1],
        }
    }

    fn set_level(&mut self, level: i32) {
        self.event[16..20].copy_from_slice(&level.to_le_bytes());
    }

    /// Gives the event a length other than 32.
    fn damage_length(&mut self) -> usize {
        let any = self.random.below(LONGEST + 1);
        self.event[EVENT_BYTES..].fill(0);
        match *self.random.one_of(&[0, 1, 31, 33, any]) {
            EVENT_BYTES => EVENT_BYTES - 1,
            length => length,
        }
    }
}
