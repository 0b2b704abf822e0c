//! Buffers as they are lent to the unit: at any alignment, with other bytes before and after them
//! that it has no business with.

/// What stands around a buffer.
const AROUND: u8 = 0x5A;

/// Bytes after a buffer, more than the longest entry has.
const AFTER: usize = 72;

/// A buffer and what stands around it.
#[derive(Default)]
pub struct Lent {
    bytes: Vec<u8>,
    before: usize,
}

impl Lent {
    /// Takes a copy of some content, after so many other bytes.
    pub fn take(&mut self, content: &[u8], before: usize) {
        self.bytes.clear();
        self.bytes.resize(before, AROUND);
        self.bytes.extend_from_slice(content);
        self.bytes.resize(before + content.len() + AFTER, AROUND);
        self.before = before;
    }

    fn end(&self) -> usize {
        self.bytes.len() - AFTER
    }

    /// The content.
    pub fn content(&self) -> &[u8] {
        &self.bytes[self.before..self.end()]
    }

    /// The content, to be written.
    pub fn content_mut(&mut self) -> &mut [u8] {
        let end = self.end();
        &mut self.bytes[self.before..end]
    }

    /// Whether nothing around the content was written.
    pub fn kept(&self) -> bool {
        let (before, after) = (&self.bytes[..self.before], &self.bytes[self.end()..]);
        before.iter().chain(after).all(|&byte| byte == AROUND)
    }
}
