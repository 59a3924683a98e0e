//! A run's last lines: what was counted, and what is still on its way.

use std::fmt;

use level_archive::{Answer, ChannelView, View};

use super::list::counted;

/// How many events had each kind of answer.
#[derive(Clone, Copy, Debug, Default, PartialEq, Eq)]
pub struct Summary {
    done: u64,
    shown: u64,
    nothing: u64,
    waits: u64,
    /// Those that were refused.
    pub refused: u64,
}

impl Summary {
    /// Counts one answer more.
    pub fn count(&mut self, answer: Answer) {
        *match answer {
            Answer::Value(_) => &mut self.shown,
            Answer::Nothing => &mut self.nothing,
            Answer::Wait { .. } => &mut self.waits,
            Answer::Refused(_) => &mut self.refused,
            _ => &mut self.done,
        } += 1;
    }

    fn events(&self) -> u64 {
        self.done + self.shown + self.nothing + self.waits + self.refused
    }
}

impl fmt::Display for Summary {
    fn fmt(&self, f: &mut fmt::Formatter<'_>) -> fmt::Result {
        let Summary { done, shown, nothing, waits, refused } = self;
        let events = counted(self.events(), "event");
        write!(
            f,
            "{events}: {done} done, {shown} shown, {nothing} with nothing to show, {waits} waits, {refused} refused"
        )
    }
}

/// The channels that hold messages, in words.
pub fn on_the_way(view: &View) -> impl Iterator<Item = String> {
    let busy = view.channels().filter(|channel| !channel.messages.is_empty());
    busy.map(|ChannelView { from, to, partition, messages }| {
        let messages = counted(messages.len() as u64, "message");
        format!("{messages} on the way from {from} to {to} partition {partition}")
    })
}
