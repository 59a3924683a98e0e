//! Sessions and their pages.

use crate::record::Record;
use crate::vector::{Vector, ZERO, raise, raise_entry};

/// A reader and writer at one site.
#[derive(Clone, Copy, PartialEq, Eq, Debug)]
pub struct Session {
    /// Whether the session is open; if not, the rest means nothing.
    pub open: bool,
    /// The session's site.
    pub site: usize,
    /// What the session's reads have to have been preceded by.
    pub vector: Vector,
    /// The page, while one is open.
    pub page: Option<Page>,
}

impl Session {
    /// A session that isn't open.
    pub const CLOSED: Session = Session { open: false, site: 0, vector: ZERO, page: None };

    /// A session as OPEN leaves it.
    pub const fn opened(site: usize) -> Session {
        Session { open: true, site, vector: ZERO, page: None }
    }
}

/// A page: several keys read at one cut.
#[derive(Clone, Copy, PartialEq, Eq, Debug)]
pub struct Page {
    /// The cut.
    pub vector: Vector,
    /// The keys not read yet, bit k for key k.
    pub unread: u64,
    /// The entrywise largest of what the shown records raise at END.
    pub raises: Vector,
}

impl Page {
    /// A page with nothing read.
    pub const fn new(vector: Vector, unread: u64) -> Page {
        Page { vector, unread, raises: ZERO }
    }

    /// Whether the key is on the page and not read yet.
    #[inline]
    pub const fn awaits(&self, key: u8) -> bool {
        self.unread >> key & 1 == 1
    }
}

/// Raises a vector by a shown record: to the record's own vector, then the
/// source entry to at least the stamp.
#[inline]
pub fn raise_by(vector: &mut Vector, record: &Record) {
    raise(vector, &record.vector);
    raise_entry(vector, record.source as usize, record.stamp);
}
