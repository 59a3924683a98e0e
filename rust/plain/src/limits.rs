//! The limits (R1 to R7).

/// The most sites.
pub const SITES: usize = 4;
/// The most partitions per site.
pub const PARTITIONS: usize = 4;
/// Keys (gauges) are 0 to 63.
pub const KEYS: usize = 64;
/// Records per node.
pub const RECORDS: usize = 32;
/// Messages per channel.
pub const MESSAGES: usize = 8;
/// Sessions are 0 to 15.
pub const SESSIONS: usize = 16;
/// Keys on a page, at most.
pub const PAGE_KEYS: usize = 8;
/// The greatest time and stamp, 2^48 - 1.
pub const LAST_TIME: u64 = (1 << 48) - 1;
/// The lowest level, in mm from datum.
pub const LOWEST_LEVEL: i32 = -50_000;
/// The highest level, in mm from datum.
pub const HIGHEST_LEVEL: i32 = 1_000_000;
/// The greatest quality: 0 measured, 1 corrected, 2 estimated.
pub const LAST_QUALITY: u8 = 2;
/// The length of an event.
pub const EVENT_BYTES: usize = 32;
