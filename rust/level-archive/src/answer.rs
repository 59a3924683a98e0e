//! Answers: typed, as five values (R34), and in 16 bytes.

use core::error::Error;
use core::fmt;

use crate::ANSWER_BYTES;
use crate::part::Part;
use crate::quality::Quality;
use crate::refusal::Refusal;

/// What a call gives back.
///
/// ```
/// use level_archive::{Answer, Quality, Reading};
///
/// let quality = Quality::Measured;
/// let answer = Answer::Value(Reading { source: 0, quality, level: 1250, stamp: 100 });
/// assert_eq!(answer.number(), 1);
/// assert_eq!(answer.to_string(), "1250 mm, measured, site 0 at 100");
/// assert_eq!(Answer::try_from(&answer.to_bytes()[..]), Ok(answer));
/// ```
#[derive(Clone, Copy, Debug, PartialEq, Eq, Hash)]
#[non_exhaustive]
pub enum Answer {
    /// 0: done.
    Done,
    /// 0, of a PUT: done, and recorded under this site and stamp.
    Written {
        /// The site at which it was written.
        source: u8,
        /// Its stamp there, at least 1.
        stamp: u64,
    },
    /// 1: the reading that is shown.
    Value(Reading),
    /// 2: nothing is recorded of this key.
    Nothing,
    /// 3: wait; nothing has changed. The same event may be served later, but not while
    /// the node lacks what is named here; [`Event::told`](crate::Event::told) says it in
    /// words.
    Wait {
        /// Of a GET or READ, the lowest-numbered site that the node has not heard far
        /// enough; a GET never waits for its own. Of a PUT, the session's own site.
        site: u8,
        /// Of a GET or READ, the stamp up to which the node must have heard the site.
        /// Of a PUT, the stamp that its node's clock must pass: greater, not equal.
        stamp: u64,
    },
    /// 10 to 24: refused; nothing has changed.
    Refused(Refusal),
}

/// A reading that is shown.
#[derive(Clone, Copy, Debug, PartialEq, Eq, Hash)]
pub struct Reading {
    /// The site at which it was written.
    pub source: u8,
    /// How it came to be known.
    pub quality: Quality,
    /// mm from datum.
    pub level: i32,
    /// Its stamp at the source.
    pub stamp: u64,
}

/// "The answer is a value: number, source, quality, level, stamp", in the order
/// in which the bench prints them. What a number does not fill is zero.
#[derive(Clone, Copy, Debug, Default, PartialEq, Eq, Hash)]
#[repr(C)]
#[must_use]
pub struct Values {
    /// 0 done, 1 value, 2 nothing recorded, 3 wait, 10 to 24 refused.
    pub number: u8,
    /// The source site; of a wait, the site that it waits for.
    pub source: u8,
    /// The quality.
    pub quality: u8,
    /// The level in mm from datum.
    pub level: i32,
    /// The stamp; of a wait, the stamp up to which the site must have been heard or,
    /// of a PUT, which the clock must pass.
    pub stamp: u64,
}

impl Answer {
    /// Its number (R60).
    pub fn number(self) -> u8 {
        self.values().number
    }

    /// The answer, or why the event was refused. A wait is no refusal.
    ///
    /// ```
    /// use level_archive::{Answer, Archive, Event, Refusal};
    ///
    /// let mut archive = Archive::new(1, 1)?;
    /// archive.step(&Event::open(3, 0)).result()?;
    /// assert_eq!(archive.step(&Event::get(3, 9)).result(), Ok(Answer::Nothing));
    /// assert_eq!(archive.step(&Event::end(3)).result(), Err(Refusal::NoPage));
    /// # Ok::<(), Refusal>(())
    /// ```
    pub fn result(self) -> Result<Answer, Refusal> {
        match self {
            Answer::Refused(refusal) => Err(refusal),
            answer => Ok(answer),
        }
    }

    /// Its five values (R34); `try_from` is the way back.
    pub fn values(self) -> Values {
        let only = |number| Values { number, ..Values::default() };
        match self {
            Answer::Done => only(0),
            Answer::Written { source, stamp } => Values { source, stamp, ..only(0) },
            Answer::Value(Reading { source, quality, level, stamp }) => {
                Values { number: 1, source, quality: quality.number(), level, stamp }
            }
            Answer::Nothing => only(2),
            Answer::Wait { site, stamp } => Values { source: site, stamp, ..only(3) },
            Answer::Refused(refusal) => only(refusal.number()),
        }
    }

    /// Its 16 bytes, as [`Archive::run_into`](crate::Archive::run_into) writes them;
    /// `try_from` is the way back.
    pub fn to_bytes(self) -> [u8; ANSWER_BYTES] {
        let Values { number, source, quality, level, stamp } = self.values();
        let mut bytes = [0; ANSWER_BYTES];
        bytes[..3].copy_from_slice(&[number, source, quality]);
        bytes[4..8].copy_from_slice(&level.to_le_bytes());
        bytes[8..].copy_from_slice(&stamp.to_le_bytes());
        bytes
    }

    /// Of what the core gave. It gives nothing that is no answer; if it did, its
    /// table would not be one to go on with.
    pub(crate) fn of_core(given: impl TryInto<Answer>) -> Answer {
        given.try_into().unwrap_or(Answer::Refused(Refusal::IllFormed))
    }
}

impl TryFrom<Values> for Answer {
    type Error = AnswerError;

    fn try_from(values: Values) -> Result<Answer, AnswerError> {
        let Values { number, source, quality, level, stamp } = values;
        let answer = match number {
            0 if stamp == 0 => Answer::Done,
            0 => Answer::Written { source, stamp },
            1 => {
                let quality = Quality::try_from(quality).map_err(|_| AnswerError)?;
                Answer::Value(Reading { source, quality, level, stamp })
            }
            2 => Answer::Nothing,
            3 => Answer::Wait { site: source, stamp },
            _ => Answer::Refused(Refusal::try_from(number).map_err(|_| AnswerError)?),
        };
        if answer.values() == values { Ok(answer) } else { Err(AnswerError) }
    }
}

impl TryFrom<&[u8]> for Answer {
    type Error = AnswerError;

    fn try_from(bytes: &[u8]) -> Result<Answer, AnswerError> {
        let part = Part(bytes);
        let answer = Answer::try_from(Values {
            number: part.byte(0),
            source: part.byte(1),
            quality: part.byte(2),
            level: part.level(4),
            stamp: part.number(8),
        })?;
        if answer.to_bytes() == bytes { Ok(answer) } else { Err(AnswerError) }
    }
}

/// Values or bytes that the archive does not give.
#[derive(Clone, Copy, Debug, PartialEq, Eq, Hash)]
pub struct AnswerError;

impl fmt::Display for AnswerError {
    fn fmt(&self, f: &mut fmt::Formatter<'_>) -> fmt::Result {
        f.pad("the archive gives no such answer")
    }
}

impl Error for AnswerError {}

impl fmt::Display for Answer {
    fn fmt(&self, f: &mut fmt::Formatter<'_>) -> fmt::Result {
        match self {
            Answer::Done => f.pad("done"),
            Answer::Written { source, stamp } => write!(f, "written, site {source} at {stamp}"),
            Answer::Value(reading) => reading.fmt(f),
            Answer::Nothing => f.pad("nothing recorded"),
            Answer::Wait { site, stamp } => {
                write!(f, "wait for site {site} (stamp {stamp}), then try again")
            }
            Answer::Refused(refusal) => write!(f, "refused ({}): {refusal}", refusal.number()),
        }
    }
}

impl fmt::Display for Reading {
    fn fmt(&self, f: &mut fmt::Formatter<'_>) -> fmt::Result {
        let Reading { source, quality, level, stamp } = self;
        write!(f, "{level} mm, {quality}, site {source} at {stamp}")
    }
}

impl fmt::Display for Values {
    /// As the bench prints them, one space between.
    fn fmt(&self, f: &mut fmt::Formatter<'_>) -> fmt::Result {
        write!(f, "{} {} {} {} {}", self.number, self.source, self.quality, self.level, self.stamp)
    }
}
