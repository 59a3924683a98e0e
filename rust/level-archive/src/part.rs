//! Numbers in bytes, little-endian, for any bytes: beyond their end all is zero.

/// Some bytes of a table, an event or an answer.
#[derive(Clone, Copy)]
pub(crate) struct Part<'a>(pub(crate) &'a [u8]);

impl<'a> Part<'a> {
    pub(crate) fn part(self, at: usize, length: usize) -> Part<'a> {
        Part(self.0.get(at..at + length).unwrap_or_default())
    }

    pub(crate) fn byte(self, at: usize) -> u8 {
        u8::from_le_bytes(self.bytes(at))
    }

    pub(crate) fn level(self, at: usize) -> i32 {
        i32::from_le_bytes(self.bytes(at))
    }

    pub(crate) fn number(self, at: usize) -> u64 {
        u64::from_le_bytes(self.bytes(at))
    }

    pub(crate) fn vector(self, at: usize) -> [u64; 4] {
        [0, 8, 16, 24].map(|entry| self.number(at + entry))
    }

    fn bytes<const N: usize>(self, at: usize) -> [u8; N] {
        self.part(at, N).0.try_into().unwrap_or([0; N])
    }
}
