//! What a buffer holds, entry by entry.

use core::iter::FusedIterator;
use core::slice::ChunksExact;

/// The entries that an answer's buffer holds, in order and from both ends: [`Event`](crate::Event)s or [`ParseError`](crate::ParseError)s.
#[derive(Clone, Debug)]
pub struct Stored<'b, T> {
    entries: ChunksExact<'b, u32>,
    read: fn(&[u32]) -> T,
}

impl<'b, T> Stored<'b, T> {
    /// The entries, each of so many words, that these words are.
    pub(crate) fn new(words: &'b [u32], size: usize, read: fn(&[u32]) -> T) -> Stored<'b, T> {
        Stored { entries: words.chunks_exact(size), read }
    }
}

impl<T> Iterator for Stored<'_, T> {
    type Item = T;

    fn next(&mut self) -> Option<T> {
        self.entries.next().map(self.read)
    }

    /// In one step, and so is `skip`.
    fn nth(&mut self, n: usize) -> Option<T> {
        self.entries.nth(n).map(self.read)
    }

    fn size_hint(&self) -> (usize, Option<usize>) {
        self.entries.size_hint()
    }
}

impl<T> DoubleEndedIterator for Stored<'_, T> {
    fn next_back(&mut self) -> Option<T> {
        self.entries.next_back().map(self.read)
    }

    /// In one step.
    fn nth_back(&mut self, n: usize) -> Option<T> {
        self.entries.nth_back(n).map(self.read)
    }
}

impl<T> ExactSizeIterator for Stored<'_, T> {}
impl<T> FusedIterator for Stored<'_, T> {}
