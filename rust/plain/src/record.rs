//! Records, and messages in transit.

use crate::vector::{Vector, ZERO};

/// A level of a gauge as one site wrote it.
#[derive(Clone, Copy, PartialEq, Eq, Debug)]
pub struct Record {
    /// The gauge.
    pub key: u8,
    /// The site that wrote it.
    pub source: u8,
    /// 0 measured, 1 corrected, 2 estimated.
    pub quality: u8,
    /// The level in mm from datum.
    pub level: i32,
    /// The clock of the writing node.
    pub stamp: u64,
    /// The writer's vector as it was before the write.
    pub vector: Vector,
}

impl Record {
    /// What a free place holds.
    pub const FREE: Record =
        Record { key: 0, source: 0, quality: 0, level: 0, stamp: 0, vector: ZERO };

    /// Newer: the greater stamp; at equal stamps the greater site number.
    #[inline]
    pub fn is_newer_than(&self, other: &Record) -> bool {
        (self.stamp, self.source) > (other.stamp, other.source)
    }
}

/// What a channel carries from one node to its fellow at another site.
#[derive(Clone, Copy, PartialEq, Eq, Debug)]
pub enum Message {
    /// A record to be stored.
    Update(Record),
    /// A stamp up to which the sender has nothing more to send.
    Heartbeat(u64),
}

impl Message {
    /// The stamp up to which the receiver has then heard the sender.
    #[inline]
    pub fn stamp(&self) -> u64 {
        match self {
            Message::Update(record) => record.stamp,
            Message::Heartbeat(stamp) => *stamp,
        }
    }
}
