//! Channels: first in, first out, at most eight messages.

use crate::limits::MESSAGES;
use crate::record::Message;

/// The messages on the way from a node to its fellow at another site.
#[derive(Clone, Copy, PartialEq, Eq, Debug)]
pub struct Channel {
    first: usize,
    length: usize,
    ring: [Message; MESSAGES],
}

impl Channel {
    /// A channel without messages.
    pub const EMPTY: Channel =
        Channel { first: 0, length: 0, ring: [Message::Heartbeat(0); MESSAGES] };

    /// How many messages wait.
    #[inline]
    pub fn len(&self) -> usize {
        self.length
    }

    /// Whether no message waits.
    #[inline]
    pub fn is_empty(&self) -> bool {
        self.length == 0
    }

    /// Whether eight messages wait.
    #[inline]
    pub fn is_full(&self) -> bool {
        self.length == MESSAGES
    }

    /// The message `place` places behind the front, if so many wait.
    #[inline]
    pub fn at(&self, place: usize) -> Option<&Message> {
        (place < self.length).then(|| &self.ring[(self.first + place) % MESSAGES])
    }

    /// Whether the front message is an update.
    #[inline]
    pub fn holds_update_in_front(&self) -> bool {
        matches!(self.at(0), Some(Message::Update(_)))
    }

    /// Adds a message at the back; the channel must not be full.
    #[inline]
    pub(crate) fn send(&mut self, message: &Message) {
        debug_assert!(!self.is_full());
        self.ring[(self.first + self.length) % MESSAGES] = *message;
        self.length += 1;
    }

    /// Takes the message at the front; the channel must not be empty.
    #[inline]
    pub(crate) fn take(&mut self) -> &Message {
        debug_assert!(!self.is_empty());
        let front = self.first % MESSAGES;
        self.first = (front + 1) % MESSAGES;
        self.length -= 1;
        &self.ring[front]
    }
}
