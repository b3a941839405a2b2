//! Stand-ins for winnow's `stream::{FindSlice, ContainsToken}`, by which lexer/mod.rs
//! searches bytes.
//!
//! Taken for granted: `find_slice` with one needle answers its leftmost place; with
//! several, the leftmost place at which any of them stands, and there the one named
//! first. `contains_token` says whether the byte is one of those named.

use std::ops::Range;

/// Searching for a needle, or for the first of several.
pub trait FindSlice<N> {
    /// Where the needle found lies.
    fn find_slice(&self, needle: N) -> Option<Range<usize>>;
}

/// A set of bytes.
pub trait ContainsToken {
    /// Whether the byte is in it.
    fn contains_token(&self, token: u8) -> bool;
}

/// The byte that stands at this place.
fn one_byte(place: usize) -> Range<usize> {
    place..place + 1
}

impl FindSlice<(u8, u8)> for &[u8] {
    #[inline(always)]
    fn find_slice(&self, (a, b): (u8, u8)) -> Option<Range<usize>> {
        let place = self.iter().position(|byte| *byte == a || *byte == b);
        place.map(one_byte)
    }
}

impl FindSlice<(u8, u8, u8)> for &[u8] {
    #[inline(always)]
    fn find_slice(&self, (a, b, c): (u8, u8, u8)) -> Option<Range<usize>> {
        let is_one = |byte: &u8| *byte == a || *byte == b || *byte == c;
        self.iter().position(is_one).map(one_byte)
    }
}

impl FindSlice<&str> for &[u8] {
    #[inline(always)]
    fn find_slice(&self, needle: &str) -> Option<Range<usize>> {
        leftmost(self, [needle])
    }
}

impl FindSlice<(&str, &str)> for &[u8] {
    #[inline(always)]
    fn find_slice(&self, (a, b): (&str, &str)) -> Option<Range<usize>> {
        leftmost(self, [a, b])
    }
}

/// The leftmost place at which one of the needles stands, place by place.
#[inline(always)]
fn leftmost<const N: usize>(bytes: &[u8], needles: [&str; N]) -> Option<Range<usize>> {
    (0..bytes.len()).find_map(|place| {
        let rest = &bytes[place..];
        let here = needles.iter().find(|n| rest.starts_with(n.as_bytes()))?;
        Some(place..place + here.len())
    })
}

impl ContainsToken for (u8, u8) {
    #[inline(always)]
    fn contains_token(&self, token: u8) -> bool {
        self.0 == token || self.1 == token
    }
}

impl ContainsToken for &[u8] {
    #[inline(always)]
    fn contains_token(&self, token: u8) -> bool {
        self.iter().any(|one| *one == token)
    }
}

#[cfg(test)]
mod tests {
    use super::*;

    #[test]
    fn of_several_needles_the_leftmost_is_found() {
        let text: &[u8] = b"ab\n'c'";
        assert_eq!(text.find_slice((b'\'', b'\n')), Some(2..3));
        assert_eq!(text.find_slice((b'\n', b'\'')), Some(2..3));
        assert_eq!(text.find_slice((b'"', b'\\', b'c')), Some(4..5));
        assert_eq!(text.find_slice((b'c', b'b', b'\n')), Some(1..2));
        assert_eq!(text.find_slice((b'"', b'\\')), None);
        let text: &[u8] = br#"a""b\"""""#;
        assert_eq!(text.find_slice((r#"""""#, "\\")), Some(4..5));
        assert_eq!(text.find_slice(("\\", r#"""""#)), Some(4..5));
        let text: &[u8] = br#"a"""b\"#;
        assert_eq!(text.find_slice(("\\", r#"""""#)), Some(1..4));
    }

    #[test]
    fn a_needle_of_several_bytes_is_found_whole() {
        let text: &[u8] = b"''a''''";
        assert_eq!(text.find_slice("'''"), Some(3..6));
        assert_eq!(text[..5].as_ref().find_slice("'''"), None);
        let empty: &[u8] = b"";
        assert_eq!(empty.find_slice("'''"), None);
        assert_eq!(empty.find_slice((b'\r', b'\n')), None);
    }

    #[test]
    fn searching_agrees_with_trying_each_place() {
        let bytes = b"'\"\\\na";
        for number in 0..5usize.pow(6) {
            let text: Vec<u8> = (0..6)
                .map(|at| bytes[number / 5usize.pow(at) % 5])
                .collect();
            let text = text.as_slice();
            let place = |needle: &[u8]| (0..6).find(|at| text[*at..].starts_with(needle));
            let first = |needles: &[&[u8]]| needles.iter().filter_map(|one| place(one)).min();
            let start = |found: Option<Range<usize>>| found.map(|range| range.start);
            assert_eq!(
                start(text.find_slice((b'\'', b'\n'))),
                first(&[b"'", b"\n"])
            );
            let three = text.find_slice((b'"', b'\\', b'\n'));
            assert_eq!(start(three), first(&[b"\"", b"\\", b"\n"]));
            let long = text.find_slice(("\"\"\"", "\\"));
            assert_eq!(start(long), first(&[b"\"\"\"", b"\\"]));
            assert_eq!(start(text.find_slice("'''")), first(&[b"'''"]));
        }
    }

    #[test]
    fn sets_contain_what_they_name() {
        let marks: &[u8] = b".=,";
        for byte in 0..=255 {
            assert_eq!((b' ', b'\t').contains_token(byte), byte == 32 || byte == 9);
            assert_eq!(marks.contains_token(byte), b".=,".contains(&byte));
        }
    }
}
