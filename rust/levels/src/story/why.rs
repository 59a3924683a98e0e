//! Why an event is refused, from the table that it left unchanged.

use level_archive::limits::MESSAGES;
use level_archive::{Event, Refusal, View};

use super::{Detail, Node};

/// More about a refusal, where there is more to say than its number.
pub fn refused(view: &View, event: Event, refusal: Refusal, node: Option<Node>) -> Option<Detail> {
    match (refusal, event) {
        (Refusal::BeforeClock, _) => {
            let node = node?;
            Some(Detail::ClockIs(view.node(node.site, node.partition)?.clock))
        }
        (Refusal::NotOnPage, Event::Read { session, key }) => {
            let keys = view.session(session)?.page?.keys;
            Some(Detail::AlreadyRead(keys.contains(&(key, true))))
        }
        (Refusal::Unread, Event::End { session }) => {
            let keys = view.session(session)?.page?.keys;
            let unread = keys.into_iter().filter(|(_, read)| !read);
            Some(Detail::UnreadKeys(unread.map(|(key, _)| key).collect()))
        }
        (Refusal::ChannelFull, _) => {
            let node = node?;
            let full = view.channels().filter(|channel| {
                (channel.from, channel.partition) == (node.site, node.partition)
                    && channel.messages.len() >= usize::from(MESSAGES)
            });
            Some(Detail::FullTo(full.map(|channel| channel.to).collect()))
        }
        _ => None,
    }
}
