//! What a view says of a table is what the other implementation holds, on generated
//! events.

use level_archive::{Archive, ChannelView, Message, NodeView, Quality, Record, SessionView, View};
use plain::random::Random;
use plain::stream::{Stream, Style};

fn record(record: &plain::Record) -> Record {
    let plain::Record { key, source, quality, level, stamp, vector } = *record;
    let quality = Quality::try_from(quality).expect("0 to 2");
    Record { key, source, quality, level, stamp, carried: vector }
}

fn message(from: u8, message: &plain::Message) -> Message {
    match message {
        plain::Message::Update(update) => Message::Update(record(update)),
        plain::Message::Heartbeat(stamp) => Message::Heartbeat { source: from, stamp: *stamp },
    }
}

/// An open session's page keys that are not read yet, bit k for key k.
fn unread(keys: &[(u8, bool)]) -> u64 {
    keys.iter().filter(|key| !key.1).fold(0, |bits, key| bits | 1 << key.0)
}

fn open(session: &SessionView) -> Option<SessionView> {
    session.open.then(|| session.clone())
}

fn sessions_agree(view: &View, other: &plain::Archive) {
    for s in 0..16 {
        let session = view.session(s).expect("0 to 15");
        let expected = other.session(s.into());
        assert_eq!((session.number, session.open), (s, expected.open));
        assert_eq!(view.sessions().find(|open| open.number == s), open(&session));
        let SessionView { open, site, vector, page, .. } = session;
        if open {
            assert_eq!((usize::from(site), vector), (expected.site, expected.vector));
            let page = page.map(|page| (page.vector, unread(&page.keys), page.gathered));
            let page_of = |page: &plain::Page| (page.vector, page.unread, page.raises);
            assert_eq!(page, expected.page.as_ref().map(page_of));
        }
    }
    assert_eq!(view.session(16), None);
}

fn nodes_agree(view: &View, other: &plain::Archive) {
    for (site, partition) in (0..5).flat_map(|site| (0..5).map(move |partition| (site, partition)))
    {
        let there = site < view.sites() && partition < view.partitions();
        let expected = there.then(|| {
            let node = other.node(site.into(), partition.into());
            let records = node.records().iter().map(record).collect();
            NodeView { site, partition, clock: node.clock, heard: node.vector, records }
        });
        assert_eq!(view.node(site, partition), expected);
        let listed = view.nodes().find(|node| (node.site, node.partition) == (site, partition));
        assert_eq!(listed, expected);
        for from in 0..5 {
            let there = there && from < view.sites() && from != site;
            let expected = there.then(|| {
                let channel = other.channel(from.into(), site.into(), partition.into());
                let messages = (0..channel.len()).filter_map(|place| channel.at(place));
                let messages = messages.map(|m| message(from, m)).collect();
                ChannelView { from, to: site, partition, messages }
            });
            assert_eq!(view.channel(from, site, partition), expected);
            let named = |channel: &ChannelView| {
                (channel.from, channel.to, channel.partition) == (from, site, partition)
            };
            assert_eq!(view.channels().find(named), expected);
        }
    }
}

#[test]
fn views_agree_with_the_other_implementation() {
    for seed in 1..=60 {
        let style = Style::any(&mut Random::new(seed), 600);
        let mut stream = Stream::new(seed, style);
        let mut other = plain::Archive::new(style.sites, style.partitions).expect("lawful numbers");
        let mut archive =
            Archive::new(style.sites as u32, style.partitions as u32).expect("lawful numbers");
        for place in 0..600 {
            let event = stream.next_event();
            assert_eq!(archive.step_bytes(event).number(), other.step(event).number);
            if place % 20 == 0 {
                let view = archive.view().expect("a table that was set up");
                sessions_agree(&view, &other);
                nodes_agree(&view, &other);
            }
        }
    }
}

#[test]
fn a_key_lives_on_its_partition() {
    let archive = Archive::new(1, 3).expect("lawful numbers");
    let view = archive.view().expect("a table that was set up");
    assert_eq!((view.sites(), view.partitions()), (1, 3));
    assert_eq!([0, 1, 2, 3, 63].map(|key| view.partition_of(key)), [0, 1, 2, 0, 0]);
}
