//! What stands in a session's, a node's and a channel's part of a table, by
//! docs/LAYOUT.md. Any bytes may be looked at: in a table that isn't well formed, a
//! count beyond the room there is stops at it.

use alloc::vec::Vec;

use crate::limits::{MESSAGES, PAGE_KEYS, RECORDS};
use crate::part::Part;
use crate::quality::Quality;
use crate::view::{Message, NodeView, PageView, Record, SessionView};

impl Part<'_> {
    /// A count, and no more than there is room for.
    fn count(self, at: usize, room: u8) -> usize {
        usize::from(self.byte(at).min(room))
    }

    pub(crate) fn session(self, number: u8) -> SessionView {
        let page = (self.byte(2) == 1).then(|| self.page());
        let (open, site) = (self.byte(0) == 1, self.byte(1));
        SessionView { number, open, site, vector: self.vector(32), page }
    }

    fn page(self) -> PageView {
        let keys = (0..self.count(3, PAGE_KEYS))
            .map(|place| (self.byte(8 + place), self.byte(16 + place) == 1))
            .collect();
        PageView { vector: self.vector(64), keys, gathered: self.vector(96) }
    }

    pub(crate) fn node(self, site: u8, partition: u8) -> NodeView {
        let records = (0..self.count(40, RECORDS))
            .map(|place| self.part(64 + 56 * place, 48).record())
            .collect();
        NodeView { site, partition, clock: self.number(0), heard: self.vector(8), records }
    }

    /// Of a channel, a ring.
    pub(crate) fn messages(self) -> Vec<Message> {
        let front = usize::from(self.byte(0));
        (0..self.count(1, MESSAGES))
            .map(|behind| (front + behind) % usize::from(MESSAGES))
            .map(|place| self.part(16 + 56 * place, 48).message())
            .collect()
    }

    fn record(self) -> Record {
        Record {
            key: self.byte(0),
            source: self.byte(1),
            quality: Quality::try_from(self.byte(2)).unwrap_or(Quality::Estimated),
            level: self.level(4),
            stamp: self.number(8),
            carried: self.vector(16),
        }
    }

    fn message(self) -> Message {
        match self.byte(3) {
            1 => Message::Update(self.record()),
            _ => Message::Heartbeat { source: self.byte(1), stamp: self.number(8) },
        }
    }
}
