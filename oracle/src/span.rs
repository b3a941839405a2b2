//! Stand-in for toml_parser's `Span`: where a token or event lies.
//!
//! Taken for granted, as document 01 says: `before` is the empty span at the start,
//! `after` the empty span at the end, `append` reaches from the first's start to
//! the second's end, and the default is 0..0.

/// A range of bytes, from `start` up to and without `end`.
#[derive(Copy, Clone, Default, PartialEq, Eq, Debug)]
pub struct Span {
    start: usize,
    end: usize,
}

impl Span {
    /// The span from `start` to `end`, which the caller has in order.
    pub fn new_unchecked(start: usize, end: usize) -> Self {
        Self { start, end }
    }

    /// Its first place.
    pub fn start(&self) -> usize {
        self.start
    }

    /// The place after its last.
    pub fn end(&self) -> usize {
        self.end
    }

    /// The empty span at its start.
    #[must_use]
    pub fn before(&self) -> Self {
        Self::new_unchecked(self.start, self.start)
    }

    /// The empty span at its end.
    #[must_use]
    pub fn after(&self) -> Self {
        Self::new_unchecked(self.end, self.end)
    }

    /// From this span's start to the other's end.
    #[must_use]
    pub fn append(&self, after: Self) -> Self {
        Self::new_unchecked(self.start, after.end)
    }
}

#[cfg(test)]
mod tests {
    use super::Span;

    #[test]
    fn before_after_append() {
        let span = Span::new_unchecked(3, 7);
        assert_eq!(span.before(), Span::new_unchecked(3, 3));
        assert_eq!(span.after(), Span::new_unchecked(7, 7));
        assert_eq!(
            span.append(Span::new_unchecked(9, 12)),
            Span::new_unchecked(3, 12)
        );
        assert_eq!(Span::default(), Span::new_unchecked(0, 0));
    }
}
