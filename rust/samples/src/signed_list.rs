//! The parts of a signed policy list.

use std::ops::Range;

/// A signed policy list of a stored file.
#[derive(Clone)]
pub struct SignedList(pub Vec<u8>);

impl SignedList {
    fn number(&self, at: usize, width: usize) -> usize {
        self.0[at..at + width].iter().rev().fold(0, |number, byte| number << 8 | usize::from(*byte))
    }

    /// Where the counter stands: behind the elements.
    pub fn counter_at(&self) -> usize {
        8 + self.number(4, 4)
    }

    pub fn counter(&self) -> u16 {
        self.number(self.counter_at(), 2) as u16
    }

    /// In bytes: of the key, and of the signature.
    pub fn key_size(&self) -> usize {
        self.number(self.counter_at() + 2, 2)
    }

    /// Where the key stands.
    pub fn key_range(&self) -> Range<usize> {
        let at = self.counter_at() + 4;
        at..at + self.key_size()
    }

    /// Where the signature stands, which ends the list.
    pub fn signature_range(&self) -> Range<usize> {
        self.key_range().end..self.key_range().end + self.key_size()
    }

    pub fn key(&self) -> &[u8] {
        &self.0[self.key_range()]
    }

    pub fn signature(&self) -> &[u8] {
        &self.0[self.signature_range()]
    }

    /// What is signed: all bytes before the signature.
    pub fn message(&self) -> &[u8] {
        &self.0[..self.key_range().end]
    }

    /// The same list, unsigned: other algorithm, and nothing behind the elements.
    pub fn unsigned(&self) -> Vec<u8> {
        let mut list = self.0[..self.counter_at()].to_vec();
        super::put(&mut list, 2, 0x0010, 2);
        list
    }
}
