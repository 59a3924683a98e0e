//! What there is to say of an event beyond its answer, from the tables before and
//! after it.

use level_archive::{Answer, Event, View};

use super::{Detail, Node, why};

/// What the two views say of an event at a node, if it has one.
pub fn detail(
    (before, after): (&View, &View),
    event: Event,
    answer: Answer,
    node: Option<Node>,
) -> Option<Detail> {
    match (event, answer) {
        (_, Answer::Refused(refusal)) => why::refused(after, event, refusal, node),
        (Event::Put { .. }, Answer::Written { source, stamp }) => {
            Some(Detail::Sent { stamp, to: others(after, source) })
        }
        // a BEAT has sent exactly if it raised the node's own entry
        (Event::Beat { site, partition }, _) => {
            let own = |view: &View| Some(view.node(site, partition)?.heard[usize::from(site)]);
            let stamp = own(after)?;
            let told = own(before) == Some(stamp);
            let sent = || Detail::Sent { stamp, to: others(after, site) };
            Some(if told { Detail::Told(stamp) } else { sent() })
        }
        (Event::Deliver { from, site, partition }, _) => {
            let message = *before.channel(from, site, partition)?.messages.first()?;
            let heard = after.node(site, partition)?.heard[usize::from(from)];
            Some(Detail::Arrived { message, heard })
        }
        (Event::Begin { session, .. }, _) => {
            Some(Detail::Vector(entries(after, after.session(session)?.page?.vector)))
        }
        (Event::End { session }, _) => {
            Some(Detail::Vector(entries(after, after.session(session)?.vector)))
        }
        (Event::Close { session }, _) => before.session(session)?.page.map(|_| Detail::PageEnded),
        _ => None,
    }
}

/// The node that an event concerns: it is named, or it is the key's node at the
/// session's site.
pub fn node_of(view: &View, event: Event) -> Option<Node> {
    let at = |session| Some(view.session(session).filter(|session| session.open)?.site);
    let (site, partition) = match event {
        Event::Clock { site, partition, .. }
        | Event::Beat { site, partition }
        | Event::Deliver { site, partition, .. } => (site, partition),
        Event::Get { session, key }
        | Event::Put { session, key, .. }
        | Event::Read { session, key } => (at(session)?, view.partition_of(key)),
        Event::Begin { session, partition, .. } => (at(session)?, partition),
        _ => return None,
    };
    (site < view.sites() && partition < view.partitions()).then_some(Node { site, partition })
}

/// The other sites.
fn others(view: &View, site: u8) -> Vec<u8> {
    (0..view.sites()).filter(|other| *other != site).collect()
}

/// The entries of the sites that there are.
fn entries(view: &View, vector: [u64; 4]) -> Vec<u64> {
    vector.into_iter().take(usize::from(view.sites())).collect()
}
