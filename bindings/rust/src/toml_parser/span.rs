//! Where a token, an event or a mistake lies.

/// A range of bytes, from `start` up to and without `end`.
#[derive(Clone, Copy, Debug, Default, PartialEq, Eq, PartialOrd, Ord, Hash)]
pub struct Span {
    start: usize,
    end: usize,
}

impl Span {
    /// The span from `start` to `end`, which the caller has in order.
    pub const fn new_unchecked(start: usize, end: usize) -> Span {
        Span { start, end }
    }

    /// Whether it has no byte.
    pub const fn is_empty(&self) -> bool {
        self.start == self.end
    }

    /// Its first place.
    pub const fn start(&self) -> usize {
        self.start
    }

    /// The place after its last.
    pub const fn end(&self) -> usize {
        self.end
    }

    /// The empty span at its start.
    #[must_use]
    pub const fn before(&self) -> Span {
        Span::new_unchecked(self.start, self.start)
    }

    /// The empty span at its end.
    #[must_use]
    pub const fn after(&self) -> Span {
        Span::new_unchecked(self.end, self.end)
    }

    /// From this span's start to the other's end.
    #[must_use]
    pub const fn append(&self, after: Span) -> Span {
        Span::new_unchecked(self.start, after.end)
    }
}

impl From<crate::Span> for Span {
    fn from(span: crate::Span) -> Span {
        Span::new_unchecked(span.start as usize, span.end as usize)
    }
}
