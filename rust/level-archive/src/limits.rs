//! The limits (R1 to R7).

/// The most sites; they are numbered from 0.
pub const SITES: u8 = 4;
/// The most partitions per site; they are numbered from 0.
pub const PARTITIONS: u8 = 4;
/// Keys (gauges) are numbered from 0; key k lives on partition k mod their number.
pub const KEYS: u8 = 64;
/// The most records of a node.
pub const RECORDS: u8 = 32;
/// The most messages of a channel.
pub const MESSAGES: u8 = 8;
/// Sessions are numbered from 0.
pub const SESSIONS: u8 = 16;
/// The most keys of a page.
pub const PAGE_KEYS: u8 = 8;
/// The last time and stamp, 2^48 − 1.
pub const LAST_TIME: u64 = (1 << 48) - 1;
/// The lowest level, in mm from datum.
pub const LOWEST_LEVEL: i32 = -50_000;
/// The highest level, in mm from datum.
pub const HIGHEST_LEVEL: i32 = 1_000_000;
