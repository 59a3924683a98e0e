//! What a step gives back.

use crate::record::Record;

/// An answer: a number and, for some numbers, values after it.
#[derive(Clone, Copy, PartialEq, Eq, Debug, Default)]
pub struct Answer {
    /// 0 done, 1 value, 2 nothing recorded, 3 wait, 10 and above refused.
    pub number: u8,
    /// The source site of a value, or of a PUT that was done; the site that a
    /// wait waits for.
    pub source: u8,
    /// The quality of a value.
    pub quality: u8,
    /// The level of a value, in mm from datum.
    pub level: i32,
    /// The stamp of a value, or of a PUT that was done; of a wait, the stamp
    /// needed: up to which a GET or READ has to have heard the site, or which
    /// the clock of a PUT must pass.
    pub stamp: u64,
}

impl Answer {
    /// Done, with nothing to tell.
    pub const DONE: Answer = Answer::only(0);
    /// Nothing recorded.
    pub const NOTHING: Answer = Answer::only(2);

    /// A number with zeros after it.
    #[inline]
    pub const fn only(number: u8) -> Answer {
        Answer { number, source: 0, quality: 0, level: 0, stamp: 0 }
    }

    /// A PUT that was done at `source` with `stamp`.
    #[inline]
    pub const fn put(source: u8, stamp: u64) -> Answer {
        Answer { number: 0, source, quality: 0, level: 0, stamp }
    }

    /// A wait for a site and a stamp.
    #[inline]
    pub const fn wait((site, stamp): (usize, u64)) -> Answer {
        Answer { number: 3, source: site as u8, quality: 0, level: 0, stamp }
    }

    /// The value of a shown record.
    #[inline]
    pub const fn value(record: &Record) -> Answer {
        Answer {
            number: 1,
            source: record.source,
            quality: record.quality,
            level: record.level,
            stamp: record.stamp,
        }
    }

    /// As 16 bytes: 0 number, 1 source, 2 quality, 3 zero, 4–7 level, 8–15 stamp.
    #[inline]
    pub fn to_bytes(self) -> [u8; 16] {
        let mut bytes = [0; 16];
        bytes[..3].copy_from_slice(&[self.number, self.source, self.quality]);
        bytes[4..8].copy_from_slice(&self.level.to_le_bytes());
        bytes[8..].copy_from_slice(&self.stamp.to_le_bytes());
        bytes
    }

    /// Whether a read was served: a value or nothing recorded.
    #[inline]
    pub const fn is_served(&self) -> bool {
        self.number == 1 || self.number == 2
    }
}
