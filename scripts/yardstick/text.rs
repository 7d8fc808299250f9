//! Texts and identifiers that are held in place, and copied as they stand.
use std::cmp::Ordering;
use std::hash::{Hash, Hasher};

/// Up to 64 bytes.
#[derive(Clone, Copy)]
pub struct Text {
    length: u8,
    bytes: [u8; 64],
}

impl Text {
    pub fn new() -> Text {
        Text { length: 0, bytes: [0; 64] }
    }

    /// The text of these bytes, which are 64 at most.
    pub fn of(bytes: &[u8]) -> Text {
        let mut text = Text::new();
        text.bytes[..bytes.len()].copy_from_slice(bytes);
        text.length = bytes.len() as u8;
        text
    }

    pub fn as_slice(&self) -> &[u8] {
        &self.bytes[..self.length as usize]
    }

    /// Adds a byte at the end, where there is room.
    pub fn push(&mut self, byte: u8) -> Option<()> {
        *self.bytes.get_mut(self.length as usize)? = byte;
        self.length += 1;
        Some(())
    }
}

impl PartialEq for Text {
    fn eq(&self, other: &Text) -> bool {
        self.as_slice() == other.as_slice()
    }
}

impl Eq for Text {}

impl PartialOrd for Text {
    fn partial_cmp(&self, other: &Text) -> Option<Ordering> {
        Some(self.cmp(other))
    }
}

impl Ord for Text {
    fn cmp(&self, other: &Text) -> Ordering {
        self.as_slice().cmp(other.as_slice())
    }
}

impl Hash for Text {
    fn hash<H: Hasher>(&self, state: &mut H) {
        self.as_slice().hash(state)
    }
}

/// The identifier of a branch.
#[derive(Clone, Copy, PartialEq, Eq, PartialOrd, Ord)]
pub struct Xid {
    pub format: u64,
    pub global: Text,
    pub branch: Text,
}
