//! The protocol's ten steps. Each begins with its table of refusals, in the
//! order of R60; the wait is last and says what it waits for. After the table
//! nothing fails.

use crate::answer::Answer;
use crate::archive::Archive;
use crate::event::Event;
use crate::record::{Message, Record};
use crate::session::{Page, Session, raise_by};
use crate::vector::{
    covers, covers_besides, first_short, first_short_besides, greatest, raise, raise_entry,
};

/// Gives the first number whose case applies. What a wait waits for is looked
/// for only once it is known that the event waits.
macro_rules! refuse {
    () => {};
    (3 when $case:expr, for $site_and_stamp:expr;) => {
        if $case { return Answer::wait($site_and_stamp); }
    };
    ($number:literal when $case:expr; $($rest:tt)*) => {
        if $case { return Answer::only($number); }
        refuse! { $($rest)* }
    };
}

impl Archive {
    /// 1 OPEN: zero vector, no page.
    pub(crate) fn open(&mut self, event: &Event) -> Answer {
        let session = &mut self.sessions[event.session];
        refuse! {
            13 when session.open;
        }
        *session = Session::opened(event.site);
        Answer::DONE
    }

    /// 2 CLOSE: ends the session, page or no page.
    pub(crate) fn close(&mut self, event: &Event) -> Answer {
        let session = &mut self.sessions[event.session];
        refuse! {
            12 when !session.open;
        }
        *session = Session::CLOSED;
        Answer::DONE
    }

    /// 3 CLOCK: sets the node's clock.
    pub(crate) fn clock(&mut self, event: &Event) -> Answer {
        let node = &mut self.nodes[event.site][event.partition];
        refuse! {
            19 when event.time < node.clock;
        }
        node.clock = event.time;
        Answer::DONE
    }

    /// 4 GET: shows the newest record and raises the session by it.
    pub(crate) fn get(&mut self, event: &Event) -> Answer {
        let partition = self.partition_of(event.key);
        let session = &mut self.sessions[event.session];
        let node = &self.nodes[session.site][partition];
        refuse! {
            12 when !session.open;
            14 when session.page.is_some();
            3 when !covers_besides(session.site, &node.vector, &session.vector),
                for first_short_besides(session.site, &node.vector, &session.vector);
        }
        let Some(record) = node.newest(event.key) else {
            return Answer::NOTHING;
        };
        raise_by(&mut session.vector, record);
        Answer::value(record)
    }

    /// 5 PUT: stores a record and sends it to each other site.
    pub(crate) fn put(&mut self, event: &Event) -> Answer {
        let partition = self.partition_of(event.key);
        let session = &mut self.sessions[event.session];
        let site = session.site;
        let node = &mut self.nodes[site][partition];
        let channels = &mut self.channels[site][partition];
        let stamp = node.clock;
        let latest = greatest(&session.vector).max(node.vector[site]);
        refuse! {
            12 when !session.open;
            14 when session.page.is_some();
            22 when node.is_full();
            21 when channels.iter().any(|channel| channel.is_full());
            3 when stamp <= latest, for (site, latest);
        }
        let record = Record {
            key: event.key,
            source: site as u8,
            quality: event.quality,
            level: event.level,
            stamp,
            vector: session.vector,
        };
        node.store(&record);
        node.vector[site] = stamp;
        session.vector[site] = stamp;
        self.send(site, partition, &Message::Update(record));
        Answer::put(site as u8, stamp)
    }

    /// 6 BEGIN: opens a page at the cut of the coordinator and the session.
    pub(crate) fn begin(&mut self, event: &Event) -> Answer {
        let session = &mut self.sessions[event.session];
        let keys = &event.page[..event.count];
        let unread = keys.iter().fold(0u64, |set, key| set | 1 << key);
        refuse! {
            12 when !session.open;
            14 when session.page.is_some();
            17 when unread.count_ones() as usize != event.count;
        }
        let mut vector = self.nodes[session.site][event.partition].vector;
        raise(&mut vector, &session.vector);
        session.page = Some(Page::new(vector, unread));
        Answer::DONE
    }

    /// 7 READ: shows the newest record that the page may show.
    pub(crate) fn read(&mut self, event: &Event) -> Answer {
        let partition = self.partition_of(event.key);
        let session = &mut self.sessions[event.session];
        let node = &self.nodes[session.site][partition];
        refuse! {
            12 when !session.open;
        }
        let Some(page) = &mut session.page else {
            return Answer::only(15);
        };
        refuse! {
            16 when !page.awaits(event.key);
            3 when !covers(&node.vector, &page.vector),
                for first_short(&node.vector, &page.vector);
        }
        page.unread &= !(1 << event.key);
        let Some(record) = node.newest_for_page(event.key, &page.vector) else {
            return Answer::NOTHING;
        };
        raise_by(&mut page.raises, record);
        Answer::value(record)
    }

    /// 8 END: raises the session by each record shown, and closes the page.
    pub(crate) fn end(&mut self, event: &Event) -> Answer {
        let session = &mut self.sessions[event.session];
        refuse! {
            12 when !session.open;
        }
        let Some(page) = &session.page else {
            return Answer::only(15);
        };
        refuse! {
            18 when page.unread != 0;
        }
        raise(&mut session.vector, &page.raises);
        session.page = None;
        Answer::DONE
    }

    /// 9 BEAT: tells each other site the clock, if that is news.
    pub(crate) fn beat(&mut self, event: &Event) -> Answer {
        let node = &mut self.nodes[event.site][event.partition];
        let channels = &self.channels[event.site][event.partition];
        let stamp = node.clock;
        let sends = stamp > node.vector[event.site];
        refuse! {
            21 when sends && channels.iter().any(|channel| channel.is_full());
        }
        if sends {
            node.vector[event.site] = stamp;
            self.send(event.site, event.partition, &Message::Heartbeat(stamp));
        }
        Answer::DONE
    }

    /// 10 DELIVER: takes one message from its channel into the node.
    pub(crate) fn deliver(&mut self, event: &Event) -> Answer {
        let channel = &mut self.channels[event.from][event.partition][event.site];
        let node = &mut self.nodes[event.site][event.partition];
        refuse! {
            20 when channel.is_empty();
            22 when channel.holds_update_in_front() && node.is_full();
        }
        let message = channel.take();
        if let Message::Update(record) = message {
            node.store(record);
        }
        raise_entry(&mut node.vector, event.from, message.stamp());
        Answer::DONE
    }

    /// Puts a message into the channel of a node to each other site.
    fn send(&mut self, site: usize, partition: usize, message: &Message) {
        let channels = &mut self.channels[site][partition][..self.sites];
        for (to, channel) in channels.iter_mut().enumerate() {
            if to != site {
                channel.send(message);
            }
        }
    }
}
