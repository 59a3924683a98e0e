//! Plans the events that end a wait.

use super::Stream;
use crate::event::code;
use crate::limits::{EVENT_BYTES, LAST_TIME};
use crate::make::{self, Bytes};
use crate::vector::{Vector, greatest};

impl Stream {
    /// Plans for the event that has just waited.
    pub(super) fn help(&mut self) {
        let mut event = [0; EVENT_BYTES];
        event.copy_from_slice(&self.event[..EVENT_BYTES]);
        let session = *self.archive.session(event[3].into());
        let partition = self.archive.partition_of(event[4]);
        match event[0] {
            code::PUT => self.help_put(session.site, partition, &session.vector),
            code::GET => self.help_hear(session.site, partition, &session.vector, false),
            _ => {
                let page = session.page.map_or(session.vector, |page| page.vector);
                self.help_hear(session.site, partition, &page, true);
            }
        }
        self.plan.push_back(event);
    }

    /// The clock that lets a PUT through, if one is due.
    fn help_put(&mut self, site: usize, partition: usize, vector: &Vector) {
        if self.is_put_due() {
            let node = self.archive.node(site, partition);
            let least = greatest(vector).max(node.vector[site]) + 1;
            self.plan_clock(site, partition, least);
        }
    }

    /// What lets a node hear each site up to an entry of `wanted`.
    fn help_hear(&mut self, site: usize, partition: usize, wanted: &Vector, own: bool) {
        let heard = self.archive.node(site, partition).vector;
        for (from, stamp) in wanted.iter().enumerate() {
            if heard[from] < *stamp && (from != site || own) {
                self.help_hear_from(from, site, partition, *stamp);
            }
        }
    }

    /// Deliveries of what is on the way and, if that isn't enough, a heartbeat.
    fn help_hear_from(&mut self, from: usize, site: usize, partition: usize, stamp: u64) {
        let deliver = make::deliver(from as u8, site as u8, partition as u8);
        let channel = self.archive.channel(from, site, partition);
        let length = channel.len();
        let last = length.checked_sub(1).and_then(|place| channel.at(place));
        let enough = last.is_some_and(|message| message.stamp() >= stamp);
        self.plan.extend(std::iter::repeat_n(deliver, length));
        if !enough {
            self.plan_clock(from, partition, stamp);
            self.plan.push_back(make::beat(from as u8, partition as u8));
            if from != site {
                self.plan.push_back(deliver);
            }
        }
    }

    /// A CLOCK of a node to a time, or to its clock if that is later.
    fn plan_clock(&mut self, site: usize, partition: usize, time: u64) {
        let clock = self.archive.node(site, partition).clock;
        let event: Bytes = make::clock(site as u8, partition as u8, time.max(clock).min(LAST_TIME));
        self.plan.push_back(event);
    }
}
