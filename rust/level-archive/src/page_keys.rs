//! The keys of a page.

use core::error::Error;
use core::fmt;

use crate::limits::PAGE_KEYS;

/// Up to 8 keys. None, and any numbers, may be written: the archive refuses them.
///
/// ```
/// use level_archive::{PageKeys, TooManyKeys};
///
/// assert_eq!(PageKeys::new(&[4, 5])?.as_slice(), [4, 5]);
/// assert_eq!(PageKeys::new(&[0; 9]), Err(TooManyKeys));
/// # Ok::<(), TooManyKeys>(())
/// ```
#[derive(Clone, Copy, Default, PartialEq, Eq, Hash)]
pub struct PageKeys {
    count: u8,
    keys: [u8; ROOM], // zero from the count on
}

const ROOM: usize = PAGE_KEYS as usize;

impl PageKeys {
    /// The keys in this order.
    pub const fn new(keys: &[u8]) -> Result<PageKeys, TooManyKeys> {
        if keys.len() > ROOM {
            return Err(TooManyKeys);
        }
        let mut page = PageKeys { count: keys.len() as u8, keys: [0; ROOM] };
        let mut place = 0;
        while place < keys.len() {
            page.keys[place] = keys[place];
            place += 1;
        }
        Ok(page)
    }

    /// These keys and one more.
    pub(crate) fn and(mut self, key: u8) -> Result<PageKeys, TooManyKeys> {
        *self.keys.get_mut(usize::from(self.count)).ok_or(TooManyKeys)? = key;
        self.count += 1;
        Ok(self)
    }

    /// The keys.
    pub fn as_slice(&self) -> &[u8] {
        self.keys.get(..usize::from(self.count)).unwrap_or_default()
    }

    /// How many there are, 0 to 8.
    pub const fn count(&self) -> u8 {
        self.count
    }

    /// The eight bytes of an event, zero from the count on.
    pub(crate) const fn bytes(&self) -> [u8; ROOM] {
        self.keys
    }
}

impl TryFrom<&[u8]> for PageKeys {
    type Error = TooManyKeys;

    fn try_from(keys: &[u8]) -> Result<PageKeys, TooManyKeys> {
        PageKeys::new(keys)
    }
}

impl fmt::Debug for PageKeys {
    fn fmt(&self, f: &mut fmt::Formatter<'_>) -> fmt::Result {
        self.as_slice().fmt(f)
    }
}

/// More than 8 keys for a page.
#[derive(Clone, Copy, Debug, PartialEq, Eq, Hash)]
pub struct TooManyKeys;

impl fmt::Display for TooManyKeys {
    fn fmt(&self, f: &mut fmt::Formatter<'_>) -> fmt::Result {
        f.pad("a page has at most 8 keys")
    }
}

impl Error for TooManyKeys {}
