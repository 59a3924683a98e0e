//! Messages followed from the event that sent them to the one that delivered them.
//! The archive starts empty and channels are first in, first out, so what was sent
//! and the answers are enough.

use std::collections::{BTreeMap, VecDeque};

use level_archive::{Event, Message};

use crate::story::{Detail, Happening};

/// A channel: from, to, partition.
type Channel = (u8, u8, u8);

/// A message that arrived; events are counted from 0.
pub struct Travel {
    /// The PUT or BEAT that sent it.
    pub sent: usize,
    /// The DELIVER that brought it.
    pub delivered: usize,
    /// The message.
    pub message: Message,
}

/// All messages.
#[derive(Default)]
pub struct Travels {
    /// Those that arrived, in the order of arriving.
    pub delivered: Vec<Travel>,
    channels: BTreeMap<Channel, VecDeque<usize>>,
}

/// Follows all messages.
pub fn travels(happenings: &[Happening]) -> Travels {
    let mut travels = Travels::default();
    for (event, happening) in happenings.iter().enumerate() {
        travels.go_on(event, happening);
    }
    travels
}

impl Travels {
    fn go_on(&mut self, event: usize, happening: &Happening) {
        let Some(node) = happening.node else { return };
        match (&happening.detail, happening.piece.event()) {
            (Detail::Sent { to, .. }, _) => {
                for &to in to {
                    self.channels
                        .entry((node.site, to, node.partition))
                        .or_default()
                        .push_back(event);
                }
            }
            (Detail::Arrived { message, .. }, Ok(Event::Deliver { from, site, partition })) => {
                let channel = self.channels.entry((from, site, partition)).or_default();
                if let Some(sent) = channel.pop_front() {
                    self.delivered.push(Travel { sent, delivered: event, message: *message });
                }
            }
            _ => {}
        }
    }

    /// The sites that an event's message has not reached.
    pub fn left_over(&self, event: usize) -> Vec<u8> {
        let waiting = self.channels.iter().filter(|(_, events)| events.contains(&event));
        waiting.map(|((_, to, _), _)| *to).collect()
    }
}
