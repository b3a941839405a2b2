//! Stand-in for winnow's `stream::TokenSlice`, which document.rs reads from.
//!
//! Taken for granted: it is the whole list with the part not yet read,
//! and dereferences to that part; `next_token` reads one; `next_slice` reads that
//! many and panics if there are fewer; `finish` reads all; `eof_offset` is the
//! number not yet read; `previous_tokens` gives those already read, the last one
//! first; `reset_to_start` makes all unread; a checkpoint is a place in the list
//! and `offset_from` the number of tokens between two.

use super::Offset;
use super::Stream;

/// A list of tokens of which the first `read` have been read.
#[derive(Copy, Clone, Debug)]
pub struct TokenSlice<'t, T> {
    initial: &'t [T],
    read: usize,
}

/// A place in a `TokenSlice`, as the number of tokens before it.
#[derive(Copy, Clone, PartialEq, Eq, Debug)]
pub struct Checkpoint(usize);

impl Offset for Checkpoint {
    fn offset_from(&self, start: &Self) -> usize {
        self.0 - start.0
    }
}

impl<'t, T> TokenSlice<'t, T> {
    /// The list with nothing read.
    pub fn new(initial: &'t [T]) -> Self {
        Self { initial, read: 0 }
    }

    /// Makes everything unread.
    pub fn reset_to_start(&mut self) {
        self.read = 0;
    }

    /// What has been read, the last one first.
    pub fn previous_tokens(&self) -> impl Iterator<Item = &'t T> {
        self.initial[..self.read].iter().rev()
    }
}

impl<T> std::ops::Deref for TokenSlice<'_, T> {
    type Target = [T];

    fn deref(&self) -> &[T] {
        &self.initial[self.read..]
    }
}

impl<'t, T> Stream for TokenSlice<'t, T> {
    type Token = &'t T;
    type Slice = &'t [T];
    type Checkpoint = Checkpoint;

    fn next_token(&mut self) -> Option<&'t T> {
        let token = self.initial.get(self.read)?;
        self.read += 1;
        Some(token)
    }

    fn peek_token(&self) -> Option<&'t T> {
        self.initial.get(self.read)
    }

    fn offset_for(&self, found: impl Fn(&'t T) -> bool) -> Option<usize> {
        self.initial[self.read..].iter().position(found)
    }

    fn next_slice(&mut self, offset: usize) -> &'t [T] {
        let slice = &self.initial[self.read..][..offset];
        self.read += offset;
        slice
    }

    fn eof_offset(&self) -> usize {
        self.initial.len() - self.read
    }

    fn finish(&mut self) -> &'t [T] {
        self.next_slice(self.eof_offset())
    }

    fn checkpoint(&self) -> Checkpoint {
        Checkpoint(self.read)
    }
}

#[cfg(test)]
mod tests {
    use super::*;

    /// The original's `seek`, which is private there, over this stand-in.
    fn seek(stream: &mut TokenSlice<'_, u8>, offset: isize) {
        let current = stream.checkpoint();
        stream.reset_to_start();
        let start = stream.checkpoint();
        let old_offset = current.offset_from(&start);
        let new_offset = (old_offset as isize).saturating_add(offset) as usize;
        if new_offset < stream.eof_offset() {
            stream.next_slice(new_offset);
        } else {
            stream.finish();
        }
    }

    #[test]
    fn reading_moves_the_front() {
        let mut stream = TokenSlice::new(&[1u8, 2, 3, 4]);
        assert_eq!(stream.first(), Some(&1));
        assert_eq!(stream.get(1), Some(&2));
        assert_eq!(stream.next_token(), Some(&1));
        assert_eq!(stream.next_slice(2), [2, 3]);
        assert_eq!(stream.first(), Some(&4));
        assert_eq!(stream.get(1), None);
        assert_eq!(stream.eof_offset(), 1);
        assert_eq!(stream.finish(), [4]);
        assert_eq!(stream.next_token(), None);
        assert_eq!(stream.finish(), []);
    }

    #[test]
    fn previous_tokens_run_backwards() {
        let mut stream = TokenSlice::new(&[1u8, 2, 3]);
        assert_eq!(stream.previous_tokens().count(), 0);
        stream.next_slice(2);
        assert_eq!(stream.previous_tokens().collect::<Vec<_>>(), [&2, &1]);
        stream.finish();
        assert_eq!(stream.previous_tokens().collect::<Vec<_>>(), [&3, &2, &1]);
    }

    #[test]
    fn seek_back_makes_the_last_token_unread() {
        let mut stream = TokenSlice::new(&[1u8, 2, 3]);
        for place in 1..=3 {
            stream.reset_to_start();
            stream.next_slice(place);
            seek(&mut stream, -1);
            assert_eq!(stream.previous_tokens().count(), place - 1);
            assert_eq!(stream.next_token(), Some(&(place as u8)));
        }
    }

    #[test]
    fn seek_out_of_the_list_reads_all() {
        let mut stream = TokenSlice::new(&[1u8, 2, 3]);
        seek(&mut stream, -1);
        assert_eq!(stream.eof_offset(), 0);
        seek(&mut stream, 1);
        assert_eq!(stream.eof_offset(), 0);
    }

    #[test]
    #[should_panic]
    fn next_slice_beyond_the_end_panics() {
        TokenSlice::new(&[1u8]).next_slice(2);
    }
}
