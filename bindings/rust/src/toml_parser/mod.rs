//! The names and shapes of the Rust crate toml_parser, over this library: a program that uses that crate changes its `use` lines, from
//! `toml_parser::` to `deckmarten::toml_parser::`.
//!
//! The shapes are those that document.rs and lexer/mod.rs of toml_parser 1.0.4 show. The released crate is not here: what these two files do not
//! show, such as implementations of the traits for functions and lists, is not here either.
//!
//! ```
//! use deckmarten::toml_parser::decoder::Encoding;
//! use deckmarten::toml_parser::parser::{parse_document, EventReceiver};
//! use deckmarten::toml_parser::{ErrorSink, ParseError, Source, Span};
//! # macro_rules! ignored { ($($name:ident)+) => { $(fn $name(&mut self, _: Span, _: &mut dyn ErrorSink) {})+ } }
//!
//! /// Keeps the keys.
//! struct Keys<'t>(&'t str, Vec<&'t str>);
//!
//! impl EventReceiver for Keys<'_> {
//!     fn simple_key(&mut self, span: Span, _: Option<Encoding>, _: &mut dyn ErrorSink) {
//!         self.1.push(&self.0[span.start()..span.end()]);
//!     }
//! #   fn scalar(&mut self, _: Span, _: Option<Encoding>, _: &mut dyn ErrorSink) {}
//! #   fn array_open(&mut self, _: Span, _: &mut dyn ErrorSink) -> bool { true }
//! #   fn inline_table_open(&mut self, _: Span, _: &mut dyn ErrorSink) -> bool { true }
//! #   ignored! { std_table_open std_table_close array_table_open array_table_close inline_table_close array_close key_sep key_val_sep
//! #       value_sep whitespace comment newline error }
//!     // and sixteen functions more
//! }
//!
//! /// Counts the reports.
//! struct Reports(usize);
//!
//! impl ErrorSink for Reports {
//!     fn report_error(&mut self, _: ParseError) {
//!         self.0 += 1;
//!     }
//! }
//!
//! let text = "[jobs.main]\nledger = 1\n";
//! let (mut keys, mut reports) = (Keys(text, Vec::new()), Reports(0));
//! parse_document(&Source::new(text).lex().into_vec(), &mut keys, &mut reports);
//! assert_eq!((keys.1, reports.0), (vec!["jobs", "main", "ledger"], 0));
//!
//! // the receiver and the sink see what they saw from the Rust: here too no report says that a key was invented
//! let text = "[=ledger]\n";
//! let (mut keys, mut reports) = (Keys(text, Vec::new()), Reports(0));
//! parse_document(&Source::new(text).lex().into_vec(), &mut keys, &mut reports);
//! assert_eq!((keys.1, reports.0), (vec![""], 0));
//! ```
//!
//! **No report does not mean that a text fits**, as the last lines show: ask [`check`](crate::check).
//!
//! What differs from the Rust:
//!
//! - **Order.** The list is read to its end first. Then the receiver gets all events, in their order, and the sink all reports, in theirs. A receiver and a sink that
//!   are two things cannot tell; one that is both, or a receiver that reports to the sink itself, sees the events before the reports.
//! - **An open that is answered false.** The Rust then skips to the closing bracket. Here `false` is not heard, and the events within come.
//! - **Limits.** More than 65,536 tokens, places above 16,777,216 and a 65th array or inline table open at once are refused: the sink gets one report, behind
//!   all others, whose description is the text of the [`Refusal`](crate::Refusal). So is a list whose tokens do not lie end to end, and one with a token whose
//!   length is wrong for its kind, which no [`Source`] gives.
//! - **A text of more than 16,777,216 bytes** is not lexed: it gives one Atom and the Eof, which the parser refuses.

pub mod decoder;
mod error;
pub mod lexer;
pub mod parser;
mod source;
mod span;

pub use error::{ErrorSink, Expected, ParseError};
pub use source::Source;
pub use span::Span;
