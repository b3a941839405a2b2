//! The oracle: src/parser/document.rs and src/lexer/mod.rs of crate toml_parser
//! 1.0.4, compiled unchanged, as the judge of what the port must answer.
//!
//! Everything the two take from other files is a stand-in here, written from
//! reading; each says so. [`judge`] is the main function for token lists, and
//! [`texts::judge`] for texts.

#![forbid(unsafe_code)]

// The original names winnow; its stand-in is this crate's `stream`.
extern crate self as winnow;
// So does the original; its `Lexer::into_vec` needs it.
extern crate alloc;

pub mod batch;
pub mod decoder;
pub mod feeding;
pub mod frame;
pub mod generate;
pub mod grammar;
pub mod headers;
pub mod input;
// the original has a constant that only other files of its crate use
#[allow(dead_code)]
pub mod lexer;
pub mod lines;
pub mod listing;
pub mod modes;
pub mod notation;
pub mod numbers;
pub mod parser;
pub mod prng;
pub mod records;
pub mod snippets;
pub mod stream;
pub mod texts;
pub mod tomlish;
pub mod walk;
pub mod wrong;

mod error;
mod judge;
mod source;
mod span;

pub use error::ErrorSink;
pub use error::Expected;
pub use error::ParseError;
pub use judge::judge;
pub use judge::judge_compared;
pub use judge::judge_with_levels;
pub use judge::judged_compared;
pub use judge::Answer;
pub use judge::Judged;
pub use judge::LEVELS;
pub use source::Source;
pub use span::Span;
pub use walk::Entry;
