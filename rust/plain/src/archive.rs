//! The archive: sessions, nodes and channels.

use crate::answer::Answer;
use crate::channel::Channel;
use crate::event::{Event, code};
use crate::limits::*;
use crate::node::Node;
use crate::session::Session;

/// An archive of 1 to 4 sites with 1 to 4 partitions each.
#[derive(Clone, PartialEq, Eq, Debug)]
pub struct Archive {
    pub(crate) sites: usize,
    pub(crate) partitions: usize,
    pub(crate) sessions: [Session; SESSIONS],
    /// By site and partition.
    pub(crate) nodes: [[Node; PARTITIONS]; SITES],
    /// By sending site, partition and receiving site. Those of a node to
    /// itself and to absent sites stay empty.
    pub(crate) channels: [[[Channel; SITES]; PARTITIONS]; SITES],
}

impl Archive {
    /// Setup: everything empty, with clocks and vectors 0. A number that isn't
    /// 1 to 4 is refused with 11.
    pub fn new(sites: usize, partitions: usize) -> Result<Archive, Answer> {
        if !(1..=SITES).contains(&sites) || !(1..=PARTITIONS).contains(&partitions) {
            return Err(Answer::only(11));
        }
        Ok(Archive {
            sites,
            partitions,
            sessions: [Session::CLOSED; SESSIONS],
            nodes: [[Node::EMPTY; PARTITIONS]; SITES],
            channels: [[[Channel::EMPTY; SITES]; PARTITIONS]; SITES],
        })
    }

    /// Takes one event of any bytes and gives its answer. Every refusal and
    /// every wait leaves the archive as it was.
    #[inline]
    pub fn step(&mut self, event: &[u8]) -> Answer {
        let Ok(bytes) = <&[u8; EVENT_BYTES]>::try_from(event) else {
            return Answer::only(23);
        };
        match Event::decode(bytes, self.sites, self.partitions) {
            Ok(event) => self.take(&event),
            Err(refusal) => refusal,
        }
    }

    /// Takes one decoded event.
    #[inline]
    fn take(&mut self, event: &Event) -> Answer {
        match event.code {
            code::OPEN => self.open(event),
            code::CLOSE => self.close(event),
            code::CLOCK => self.clock(event),
            code::GET => self.get(event),
            code::PUT => self.put(event),
            code::BEGIN => self.begin(event),
            code::READ => self.read(event),
            code::END => self.end(event),
            code::BEAT => self.beat(event),
            _ => self.deliver(event),
        }
    }

    /// The number of sites.
    pub fn sites(&self) -> usize {
        self.sites
    }

    /// The number of partitions at each site.
    pub fn partitions(&self) -> usize {
        self.partitions
    }

    /// A session, 0 to 15.
    pub fn session(&self, session: usize) -> &Session {
        &self.sessions[session]
    }

    /// The node of a partition at a site.
    pub fn node(&self, site: usize, partition: usize) -> &Node {
        &self.nodes[site][partition]
    }

    /// The channel of a partition from one site to another.
    pub fn channel(&self, from: usize, to: usize, partition: usize) -> &Channel {
        &self.channels[from][partition][to]
    }

    /// The partition on which a key lives.
    #[inline]
    pub fn partition_of(&self, key: u8) -> usize {
        key as usize % self.partitions
    }
}
