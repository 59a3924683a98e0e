//! A table's bytes as structs.

use super::formed::well_formed;
use super::layout::{self, ChannelBytes, NodeBytes, RecordBytes, SessionBytes, Table};
use crate::archive::Archive;
use crate::channel::Channel;
use crate::limits::*;
use crate::node::Node;
use crate::record::{Message, Record};
use crate::session::{Page, Session};

/// What a table says, if it is well formed. What a closed session keeps means
/// nothing and isn't read.
pub fn read(bytes: &[u8]) -> Option<Archive> {
    if !well_formed(bytes) {
        return None;
    }
    let table = <&Table>::try_from(bytes).ok()?;
    let mut archive = Archive::new(table[0] as usize, table[1] as usize).ok()?;
    for (number, to) in archive.sessions.iter_mut().enumerate() {
        *to = session(layout::session(table, number));
    }
    for site in 0..SITES {
        for partition in 0..PARTITIONS {
            archive.nodes[site][partition] = node(layout::node(table, site, partition));
            for to in (0..archive.sites).filter(|to| *to != site) {
                let bytes = layout::channel(table, site, partition, layout::place_of(to, site));
                archive.channels[site][partition][to] = channel(bytes);
            }
        }
    }
    Some(archive)
}

fn session(bytes: &SessionBytes) -> Session {
    match bytes[0] {
        0 => Session::CLOSED,
        _ => Session {
            open: true,
            site: bytes[1] as usize,
            vector: layout::vector(bytes, 32),
            page: (bytes[2] == 1).then(|| page(bytes)),
        },
    }
}

fn page(bytes: &SessionBytes) -> Page {
    let places = 0..bytes[3] as usize;
    let unread = places.filter(|at| bytes[16 + at] == 0);
    Page {
        vector: layout::vector(bytes, 64),
        unread: unread.fold(0, |set, at| set | 1 << bytes[8 + at]),
        raises: layout::vector(bytes, 96),
    }
}

fn node(bytes: &NodeBytes) -> Node {
    let mut node = Node::EMPTY;
    node.clock = layout::word(bytes, 0);
    node.vector = layout::vector(bytes, 8);
    for slot in 0..bytes[40] as usize {
        node.store(&record(layout::record(bytes, slot)));
    }
    node
}

fn channel(bytes: &ChannelBytes) -> Channel {
    let mut channel = Channel::EMPTY;
    for behind in 0..bytes[1] as usize {
        channel.send(&message(layout::message(bytes, behind)));
    }
    channel
}

fn message(bytes: &RecordBytes) -> Message {
    match bytes[3] {
        layout::UPDATE => Message::Update(record(bytes)),
        _ => Message::Heartbeat(layout::word(bytes, 8)),
    }
}

fn record(bytes: &RecordBytes) -> Record {
    Record {
        key: bytes[0],
        source: bytes[1],
        quality: bytes[2],
        level: (layout::word(bytes, 0) >> 32) as i32,
        stamp: layout::word(bytes, 8),
        vector: layout::vector(bytes, 16),
    }
}
