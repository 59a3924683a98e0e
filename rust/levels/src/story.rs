//! Events stepped through the archive, each with what its view says about it.

mod detail;
mod why;

use std::fmt;

use level_archive::{Answer, Archive, Message, Refusal, View};

use crate::input::Piece;

/// An archive and how many events it has been given.
pub struct Story {
    archive: Archive,
    events: u64,
}

/// What happened with one event.
#[derive(Clone, Debug, PartialEq, Eq)]
pub struct Happening {
    /// The event's place, from 1.
    pub number: u64,
    /// The event.
    pub piece: Piece,
    /// What the archive said.
    pub answer: Answer,
    /// The node concerned, if there is one.
    pub node: Option<Node>,
    /// What else the archive's view says.
    pub detail: Detail,
}

/// One partition at one site; written `0,1`, site first.
#[derive(Clone, Copy, Debug, PartialEq, Eq, Hash)]
pub struct Node {
    /// The site.
    pub site: u8,
    /// The partition.
    pub partition: u8,
}

/// What the view says beyond the answer.
#[derive(Clone, Debug, PartialEq, Eq)]
pub enum Detail {
    /// Nothing.
    None,
    /// Of a PUT or BEAT: an update or heartbeat went to these sites.
    Sent {
        /// Its stamp.
        stamp: u64,
        /// The sites.
        to: Vec<u8>,
    },
    /// Of a BEAT that had nothing new to say: the stamp that was told already.
    Told(u64),
    /// Of a DELIVER: what arrived.
    Arrived {
        /// The message.
        message: Message,
        /// Up to where its sender has now been heard.
        heard: u64,
    },
    /// Of a BEGIN: the page's vector, an entry for each site; of an END, the session's.
    Vector(Vec<u64>),
    /// Of a CLOSE: a page ended with the session.
    PageEnded,
    /// Of a CLOCK that was refused: the clock.
    ClockIs(u64),
    /// Of a READ that was refused: whether the key is on the page, already read.
    AlreadyRead(bool),
    /// Of an END that was refused: the keys that are unread.
    UnreadKeys(Vec<u8>),
    /// Of a PUT or BEAT that was refused: the sites to which the channel is full.
    FullTo(Vec<u8>),
}

impl Story {
    /// Nothing has happened yet.
    pub fn of(archive: Archive) -> Story {
        Story { archive, events: 0 }
    }

    /// One event more.
    pub fn step(&mut self, piece: Piece) -> Happening {
        self.events += 1;
        let before = self.archive.clone();
        let answer = self.archive.step_bytes(piece.bytes());
        let (mut node, mut detail) = (None, None);
        if let (Ok(event), Ok(before), Ok(after)) =
            (piece.event(), before.view(), self.archive.view())
        {
            let in_range = answer != Answer::Refused(Refusal::OutOfRange);
            node = detail::node_of(&before, event).filter(|_| in_range);
            detail = detail::detail((&before, &after), event, answer, node);
        }
        let detail = detail.unwrap_or(Detail::None);
        Happening { number: self.events, piece, answer, node, detail }
    }

    /// What the archive's table says now.
    pub fn view(&self) -> Result<View<'_>, Refusal> {
        self.archive.view()
    }
}

impl Happening {
    /// The session that the event names.
    pub fn session(&self) -> Option<u8> {
        self.piece.event().ok()?.session()
    }
}

impl fmt::Display for Node {
    fn fmt(&self, f: &mut fmt::Formatter<'_>) -> fmt::Result {
        write!(f, "{},{}", self.site, self.partition)
    }
}
