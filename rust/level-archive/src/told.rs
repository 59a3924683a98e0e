//! An answer in words that only the answer and its event together can say.

use core::fmt;

use crate::answer::Answer;
use crate::event::Event;

/// An event and the answer to it.
struct Told {
    event: Event,
    answer: Answer,
}

impl Event {
    /// What an answer tells this event, in words. A wait says what the event waits for;
    /// every other answer says what it says by itself.
    ///
    /// ```
    /// use level_archive::{Answer, Event, Quality};
    ///
    /// let get = Event::get(1, 4);
    /// let wait = Answer::Wait { site: 0, stamp: 101 };
    /// assert_eq!(get.told(wait).to_string(), "waits for site 0 up to 101");
    /// assert_eq!(get.told(Answer::Nothing).to_string(), "nothing recorded");
    ///
    /// let put = Event::put(0, 5, Quality::Corrected, -30);
    /// let wait = Answer::Wait { site: 0, stamp: 100 };
    /// assert_eq!(put.told(wait).to_string(), "waits until the clock of site 0 has passed 100");
    /// ```
    pub fn told(self, answer: Answer) -> impl fmt::Display {
        Told { event: self, answer }
    }
}

impl fmt::Display for Told {
    fn fmt(&self, f: &mut fmt::Formatter<'_>) -> fmt::Result {
        match (self.event, self.answer) {
            (Event::Get { .. } | Event::Read { .. }, Answer::Wait { site, stamp }) => {
                write!(f, "waits for site {site} up to {stamp}")
            }
            (Event::Put { .. }, Answer::Wait { site, stamp }) => {
                write!(f, "waits until the clock of site {site} has passed {stamp}")
            }
            (_, answer) => answer.fmt(f),
        }
    }
}
