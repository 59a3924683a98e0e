//! What a table says, read only: which sessions, nodes and channels there are, and
//! where they stand in the table. `layout` has what stands in each; both follow
//! docs/LAYOUT.md.

use alloc::vec::Vec;
use core::fmt;

use crate::TABLE_BYTES;
use crate::limits::{PARTITIONS, SESSIONS, SITES};
use crate::part::Part;
use crate::quality::Quality;
use crate::refusal::Refusal;

/// A table is a head with the sessions, then a part for each site, and last the kept
/// places of all nodes. These say nothing that the records don't: a view leaves them out.
const FIRST_SESSION: usize = 128;
const SESSION_BYTES: usize = 128;
const FIRST_SITE: usize = 4096;
const SITE_BYTES: usize = 13_056;
/// A site's part is its four nodes and then, node by node, the channels to other sites.
const NODE_BYTES: usize = 1856;
const FIRST_CHANNEL: usize = 4 * NODE_BYTES;
const CHANNEL_BYTES: usize = 464;
const CHANNELS: usize = 3;

/// What a table says, read only.
///
/// ```
/// use level_archive::{Archive, Event, Message, Quality};
///
/// let mut archive = Archive::new(2, 2)?;
/// for event in [Event::open(3, 0), Event::clock(0, 1, 9), Event::put(3, 5, Quality::Measured, 70)] {
///     archive.step(&event).result()?;
/// }
/// let view = archive.view()?;
/// assert_eq!(view.node(0, 1).map(|node| node.records.len()), Some(1));
/// assert!(view.sessions().map(|session| (session.number, session.vector)).eq([(3, [9, 0, 0, 0])]));
/// let waiting = view.channels().find(|channel| !channel.messages.is_empty());
/// let waiting = waiting.expect("the update is on its way");
/// assert_eq!((waiting.from, waiting.to, waiting.partition), (0, 1, 1));
/// assert!(matches!(waiting.messages[..], [Message::Update(record)] if record.level == 70));
/// # Ok::<(), level_archive::Refusal>(())
/// ```
#[derive(Clone, Copy)]
pub struct View<'a> {
    table: Part<'a>,
}

/// A session that is open or not; what a closed one holds means nothing.
#[derive(Clone, Debug, PartialEq, Eq)]
pub struct SessionView {
    /// Its number, 0 to 15.
    pub number: u8,
    /// Whether it is open.
    pub open: bool,
    /// Its site.
    pub site: u8,
    /// What it has seen of each site.
    pub vector: [u64; 4],
    /// Its page, while one is open.
    pub page: Option<PageView>,
}

/// An open page.
#[derive(Clone, Debug, PartialEq, Eq)]
pub struct PageView {
    /// The moment as of which it is read.
    pub vector: [u64; 4],
    /// Its keys, each with whether it was read.
    pub keys: Vec<(u8, bool)>,
    /// What its shown records will raise at END.
    pub gathered: [u64; 4],
}

/// A node: one partition at one site.
#[derive(Clone, Debug, PartialEq, Eq)]
pub struct NodeView {
    /// Its site.
    pub site: u8,
    /// Its partition.
    pub partition: u8,
    /// Its clock.
    pub clock: u64,
    /// The stamp up to which it has heard each site.
    pub heard: [u64; 4],
    /// Its records, in the order of storing.
    pub records: Vec<Record>,
}

/// A channel: from a node to the node of the same partition at another site.
#[derive(Clone, Debug, PartialEq, Eq)]
pub struct ChannelView {
    /// The sending site.
    pub from: u8,
    /// The receiving site.
    pub to: u8,
    /// The partition.
    pub partition: u8,
    /// The messages on their way, front first.
    pub messages: Vec<Message>,
}

/// A record, or an update on its way.
#[derive(Clone, Copy, Debug, PartialEq, Eq)]
pub struct Record {
    /// The gauge.
    pub key: u8,
    /// The site at which it was written.
    pub source: u8,
    /// How it came to be known; a byte that no well-formed table has is estimated.
    pub quality: Quality,
    /// mm from datum.
    pub level: i32,
    /// Its stamp at the source.
    pub stamp: u64,
    /// What its writer's session had seen of each site.
    pub carried: [u64; 4],
}

/// A message on its way.
#[derive(Clone, Copy, Debug, PartialEq, Eq)]
pub enum Message {
    /// A record that was written.
    Update(Record),
    /// A site's clock.
    Heartbeat {
        /// The sending site.
        source: u8,
        /// Its clock.
        stamp: u64,
    },
}

impl<'a> View<'a> {
    /// Of a table's bytes; 23 unless they are 57,344, 24 unless they have 1 to 4 sites
    /// and partitions. Nothing else is checked.
    pub fn new(bytes: &'a [u8]) -> Result<View<'a>, Refusal> {
        let view = View { table: Part(bytes) };
        let lawful =
            (1..=SITES).contains(&view.sites()) && (1..=PARTITIONS).contains(&view.partitions());
        match bytes.len() {
            TABLE_BYTES if lawful => Ok(view),
            TABLE_BYTES => Err(Refusal::IllFormed),
            _ => Err(Refusal::WrongLength),
        }
    }

    /// The number of sites, 1 to 4.
    pub fn sites(&self) -> u8 {
        self.table.byte(0)
    }

    /// The number of partitions, 1 to 4.
    pub fn partitions(&self) -> u8 {
        self.table.byte(1)
    }

    /// The partition on which a key lives.
    pub fn partition_of(&self, key: u8) -> u8 {
        key.checked_rem(self.partitions()).unwrap_or(0)
    }

    /// A session, 0 to 15, open or not.
    pub fn session(&self, number: u8) -> Option<SessionView> {
        let at = FIRST_SESSION + SESSION_BYTES * usize::from(number);
        (number < SESSIONS).then(|| self.table.part(at, SESSION_BYTES).session(number))
    }

    /// The node of a partition at a site; `None` where there is none.
    pub fn node(&self, site: u8, partition: u8) -> Option<NodeView> {
        let part = self.site(site).part(NODE_BYTES * usize::from(partition), NODE_BYTES);
        let there = site < self.sites() && partition < self.partitions();
        there.then(|| part.node(site, partition))
    }

    /// The channel of a partition from a site to another; `None` where there is none.
    pub fn channel(&self, from: u8, to: u8, partition: u8) -> Option<ChannelView> {
        let there =
            from < self.sites() && to < self.sites() && from != to && partition < self.partitions();
        let place = usize::from(if to < from { to } else { to.saturating_sub(1) });
        let at = FIRST_CHANNEL + CHANNEL_BYTES * (CHANNELS * usize::from(partition) + place);
        let part = self.site(from).part(at, CHANNEL_BYTES);
        there.then(|| ChannelView { from, to, partition, messages: part.messages() })
    }

    /// The open sessions.
    pub fn sessions(&self) -> impl Iterator<Item = SessionView> + use<'a> {
        let view = *self;
        (0..SESSIONS).filter_map(move |number| view.session(number)).filter(|session| session.open)
    }

    /// All nodes, by site and then by partition.
    pub fn nodes(&self) -> impl Iterator<Item = NodeView> + use<'a> {
        let view = *self;
        let sites = 0..SITES;
        sites.flat_map(move |m| (0..PARTITIONS).filter_map(move |p| view.node(m, p)))
    }

    /// All channels, empty ones too, by sending site, receiving site and partition.
    pub fn channels(&self) -> impl Iterator<Item = ChannelView> + use<'a> {
        let view = *self;
        let pairs = (0..SITES).flat_map(|from| (0..SITES).map(move |to| (from, to)));
        pairs.flat_map(move |(m, n)| (0..PARTITIONS).filter_map(move |p| view.channel(m, n, p)))
    }

    fn site(&self, site: u8) -> Part<'a> {
        self.table.part(FIRST_SITE + SITE_BYTES * usize::from(site), SITE_BYTES)
    }
}

impl<'a> TryFrom<&'a [u8]> for View<'a> {
    type Error = Refusal;

    fn try_from(bytes: &'a [u8]) -> Result<View<'a>, Refusal> {
        View::new(bytes)
    }
}

impl fmt::Debug for View<'_> {
    fn fmt(&self, f: &mut fmt::Formatter<'_>) -> fmt::Result {
        let (sites, partitions) = (self.sites(), self.partitions());
        write!(f, "View of {sites} sites, {partitions} partitions")
    }
}
