//! Stand-ins for winnow's `stream::{LocatingSlice, Location, AsBStr}` over `&str`, and
//! for its `Stream` over bytes: what lexer/mod.rs reads from.
//!
//! Taken for granted: `LocatingSlice` is the text with the part not yet read, and
//! dereferences to that part; `next_slice` reads that many bytes and panics where this
//! would cut a character or pass the end; `finish` reads all; `eof_offset` is the
//! number of bytes not yet read; `current_token_start` and `previous_token_end` are
//! both the number of bytes already read; `as_bstr` is the part not yet read, as bytes,
//! of which `peek_token` gives the first and `offset_for` the place of the first that
//! is of the sort looked for.

use super::Offset;
use super::Stream;

/// A text of which the first `read` bytes have been read.
#[derive(Copy, Clone, Debug)]
pub struct LocatingSlice<I> {
    rest: I,
    read: usize,
}

impl<'i> LocatingSlice<&'i str> {
    /// The text with nothing read.
    pub fn new(input: &'i str) -> Self {
        Self {
            rest: input,
            read: 0,
        }
    }
}

impl<I> std::ops::Deref for LocatingSlice<I> {
    type Target = I;

    fn deref(&self) -> &I {
        &self.rest
    }
}

/// Where reading has come to.
pub trait Location {
    /// The place of what is read next.
    fn current_token_start(&self) -> usize;
    /// The place behind what was read last.
    fn previous_token_end(&self) -> usize;
}

impl Location for LocatingSlice<&str> {
    fn current_token_start(&self) -> usize {
        self.read
    }

    fn previous_token_end(&self) -> usize {
        self.read
    }
}

/// What is left, as bytes.
pub trait AsBStr {
    /// The bytes not yet read.
    fn as_bstr(&self) -> &[u8];
}

impl AsBStr for LocatingSlice<&str> {
    fn as_bstr(&self) -> &[u8] {
        self.rest.as_bytes()
    }
}

/// A place of a text, as the number of bytes from it to the end.
#[derive(Copy, Clone, PartialEq, Eq, Debug)]
pub struct Left(usize);

impl Offset for Left {
    fn offset_from(&self, start: &Self) -> usize {
        start.0 - self.0
    }
}

impl<'i> Stream for LocatingSlice<&'i str> {
    type Token = char;
    type Slice = &'i str;
    type Checkpoint = Left;

    fn next_token(&mut self) -> Option<char> {
        let token = self.peek_token()?;
        self.next_slice(token.len_utf8());
        Some(token)
    }

    fn peek_token(&self) -> Option<char> {
        self.rest.chars().next()
    }

    fn offset_for(&self, found: impl Fn(char) -> bool) -> Option<usize> {
        self.rest.find(found)
    }

    fn next_slice(&mut self, offset: usize) -> &'i str {
        let (slice, rest) = self.rest.split_at(offset);
        self.rest = rest;
        self.read += offset;
        slice
    }

    fn eof_offset(&self) -> usize {
        self.rest.len()
    }

    fn finish(&mut self) -> &'i str {
        self.next_slice(self.eof_offset())
    }

    fn checkpoint(&self) -> Left {
        Left(self.rest.len())
    }
}

impl<'i> Stream for &'i [u8] {
    type Token = u8;
    type Slice = &'i [u8];
    type Checkpoint = Left;

    fn next_token(&mut self) -> Option<u8> {
        let token = self.peek_token()?;
        self.next_slice(1);
        Some(token)
    }

    fn peek_token(&self) -> Option<u8> {
        self.first().copied()
    }

    fn offset_for(&self, found: impl Fn(u8) -> bool) -> Option<usize> {
        self.iter().position(|byte| found(*byte))
    }

    fn next_slice(&mut self, offset: usize) -> &'i [u8] {
        let (slice, rest) = self.split_at(offset);
        *self = rest;
        slice
    }

    fn eof_offset(&self) -> usize {
        self.len()
    }

    fn finish(&mut self) -> &'i [u8] {
        self.next_slice(self.eof_offset())
    }

    fn checkpoint(&self) -> Left {
        Left(self.len())
    }
}

#[cfg(test)]
mod tests {
    use super::*;

    #[test]
    fn reading_a_text_moves_its_front_by_bytes() {
        let mut stream = LocatingSlice::new("aé=1");
        assert_eq!(stream.current_token_start(), 0);
        assert_eq!(stream.as_bstr(), "aé=1".as_bytes());
        let start = stream.checkpoint();
        assert_eq!(stream.next_slice(3), "aé");
        assert_eq!(stream.checkpoint().offset_from(&start), 3);
        assert_eq!(stream.current_token_start(), 3);
        assert_eq!(stream.previous_token_end(), 3);
        assert!(stream.starts_with("=1") && !stream.is_empty());
        assert_eq!(stream.peek_token(), Some('='));
        assert_eq!(stream.offset_for(|c| c == '1'), Some(1));
        assert_eq!(stream.eof_offset(), 2);
        assert_eq!(stream.next_token(), Some('='));
        assert_eq!(stream.finish(), "1");
        assert_eq!((stream.previous_token_end(), stream.eof_offset()), (5, 0));
        assert_eq!((stream.next_token(), stream.finish()), (None, ""));
        assert!(stream.is_empty());
    }

    #[test]
    fn bytes_are_looked_at_and_not_read() {
        let stream = LocatingSlice::new("é b");
        assert_eq!(stream.as_bstr().first(), Some(&0xc3));
        assert_eq!(stream.as_bstr().get(1), Some(&0xa9));
        assert_eq!(stream.as_bstr().peek_token(), Some(0xc3));
        assert_eq!(stream.as_bstr().offset_for(|b| b == b' '), Some(2));
        assert_eq!(stream.as_bstr().offset_for(|b| b == b'x'), None);
        assert_eq!(stream.current_token_start(), 0);
    }

    #[test]
    fn bytes_are_read_from_the_front() {
        let mut bytes: &[u8] = b"abcd";
        let start = bytes.checkpoint();
        assert_eq!(bytes.next_token(), Some(b'a'));
        assert_eq!(bytes.next_slice(2), b"bc");
        assert_eq!(bytes.checkpoint().offset_from(&start), 3);
        assert_eq!((bytes.finish(), bytes.eof_offset()), (&b"d"[..], 0));
        assert_eq!(bytes.next_token(), None);
    }

    #[test]
    #[should_panic]
    fn a_character_is_not_cut() {
        LocatingSlice::new("é").next_slice(1);
    }

    #[test]
    #[should_panic]
    fn nothing_is_read_beyond_the_end() {
        LocatingSlice::new("a").next_slice(2);
    }
}
