//! The refusals: the numbers 10 to 24 (R60), each with its reason in words.

use core::error::Error;
use core::fmt;

use crate::quality::UnknownNumber;

/// Why the archive refused. A refusal changes no byte of the table.
///
/// ```
/// use level_archive::{Archive, Refusal};
///
/// let refusal = Archive::new(5, 1).err();
/// assert_eq!(refusal, Some(Refusal::OutOfRange));
/// assert_eq!(Refusal::try_from(22), Ok(Refusal::NodeFull));
/// assert_eq!(Refusal::NodeFull.to_string(), "the node holds 32 records");
/// ```
#[derive(Clone, Copy, Debug, PartialEq, Eq, PartialOrd, Ord, Hash)]
#[repr(u8)]
#[non_exhaustive]
pub enum Refusal {
    /// 10: the code isn't 1 to 10.
    UnknownCode = 10,
    /// 11: a field out of range, or one that the code doesn't use isn't zero;
    /// for setup, a number not 1 to 4.
    OutOfRange = 11,
    /// 12: the session isn't open.
    NotOpen = 12,
    /// 13: the session is already open.
    AlreadyOpen = 13,
    /// 14: a page is open in the session.
    PageOpen = 14,
    /// 15: no page is open in the session.
    NoPage = 15,
    /// 16: the key isn't on the page, or was already read.
    NotOnPage = 16,
    /// 17: the same key twice on a page.
    KeyTwice = 17,
    /// 18: a key of the page is unread.
    Unread = 18,
    /// 19: the time is before the node's clock.
    BeforeClock = 19,
    /// 20: the channel is empty.
    ChannelEmpty = 20,
    /// 21: an outgoing channel holds 8 messages.
    ChannelFull = 21,
    /// 22: the node holds 32 records.
    NodeFull = 22,
    /// 23: the table isn't 57,344 bytes, or the event isn't 32.
    WrongLength = 23,
    /// 24: the table isn't well formed.
    IllFormed = 24,
}

impl Refusal {
    /// All of them, by number.
    pub const ALL: &[Refusal] = &[
        Refusal::UnknownCode,
        Refusal::OutOfRange,
        Refusal::NotOpen,
        Refusal::AlreadyOpen,
        Refusal::PageOpen,
        Refusal::NoPage,
        Refusal::NotOnPage,
        Refusal::KeyTwice,
        Refusal::Unread,
        Refusal::BeforeClock,
        Refusal::ChannelEmpty,
        Refusal::ChannelFull,
        Refusal::NodeFull,
        Refusal::WrongLength,
        Refusal::IllFormed,
    ];

    /// Its number, 10 to 24.
    pub const fn number(self) -> u8 {
        self as u8
    }

    /// The reason in words.
    pub const fn reason(self) -> &'static str {
        match self {
            Refusal::UnknownCode => "the event's code is not 1 to 10",
            Refusal::OutOfRange => {
                "a number is out of range, or a field that is not used is not zero"
            }
            Refusal::NotOpen => "the session is not open",
            Refusal::AlreadyOpen => "the session is already open",
            Refusal::PageOpen => "a page is open",
            Refusal::NoPage => "no page is open",
            Refusal::NotOnPage => "the key is not on the page, or was already read",
            Refusal::KeyTwice => "the same key stands twice on the page",
            Refusal::Unread => "a key of the page is unread",
            Refusal::BeforeClock => "the time is before the clock",
            Refusal::ChannelEmpty => "the channel is empty",
            Refusal::ChannelFull => "an outgoing channel holds 8 messages",
            Refusal::NodeFull => "the node holds 32 records",
            Refusal::WrongLength => "the table is not 57,344 bytes, or the event is not 32",
            Refusal::IllFormed => "the table is not well formed",
        }
    }
}

impl TryFrom<u8> for Refusal {
    type Error = UnknownNumber;

    fn try_from(number: u8) -> Result<Refusal, UnknownNumber> {
        let found = Refusal::ALL.iter().find(|refusal| refusal.number() == number);
        found.copied().ok_or(UnknownNumber { of: "refusal", number })
    }
}

impl fmt::Display for Refusal {
    fn fmt(&self, f: &mut fmt::Formatter<'_>) -> fmt::Result {
        f.pad(self.reason())
    }
}

impl Error for Refusal {}
