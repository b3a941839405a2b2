//! Stand-ins for the parts of winnow's `stream` that document.rs and lexer/mod.rs
//! use. Each file says what it takes for granted.

mod find;
mod text;
mod token_slice;

pub use find::ContainsToken;
pub use find::FindSlice;
pub use text::AsBStr;
pub use text::LocatingSlice;
pub use text::Location;
pub use token_slice::Checkpoint;
pub use token_slice::TokenSlice;

/// The distance between two places of one list or text.
pub trait Offset {
    /// How many tokens lie from `start` to here.
    fn offset_from(&self, start: &Self) -> usize;
}

/// Reading from the front.
pub trait Stream {
    /// What is read one at a time.
    type Token;
    /// What is read many at a time.
    type Slice;
    /// A remembered place.
    type Checkpoint: Offset;

    /// Reads one token, if any is left.
    fn next_token(&mut self) -> Option<Self::Token>;
    /// The token that would be read next, if any is left.
    fn peek_token(&self) -> Option<Self::Token>;
    /// How many tokens lie before the first that is of the sort looked for, if one is.
    fn offset_for(&self, found: impl Fn(Self::Token) -> bool) -> Option<usize>;
    /// Reads exactly `offset` tokens. Of a text it counts bytes.
    fn next_slice(&mut self, offset: usize) -> Self::Slice;
    /// How many tokens are left; of a text, bytes.
    fn eof_offset(&self) -> usize;
    /// Reads all that is left.
    fn finish(&mut self) -> Self::Slice;
    /// Remembers the present place.
    fn checkpoint(&self) -> Self::Checkpoint;
}
