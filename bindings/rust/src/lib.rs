//! The core of a TOML parser, proved: a text in, events and errors out. This crate is a safe face of the static archive
//! libdeckmarten.a; docs/USING.md says how to link it, docs/LAYOUT.md what every number means.
//!
//! A program that wants yes or no asks [`text_fits`], which also says what a yes does not promise. One that shows mistakes reads with a
//! [`Room`]: all mistakes at once, each with its place, and comments and whitespace among the events.
//!
//! ```
//! use deckmarten::{EventKind, Room};
//!
//! let text = "a=[1 \"b\"] # two\n";
//! let mut room = Room::new();
//! let answer = room.parse_text(text.as_bytes());
//! assert!(!answer.is_quiet());
//! let error = answer.errors().next().unwrap();
//! assert_eq!(error.to_string(), "line 1: missing comma between array elements at 5..5, expected `,`");
//! assert_eq!(&text[error.context.range()], "[");
//! let comment = answer.events().find(|event| event.kind == EventKind::Comment).unwrap();
//! assert_eq!(&text[comment.span.range()], "# two");
//! ```
//!
//! A program that looks for one table of many makes an [`Index`] of a quiet run, by [`Answer::index`].
//!
//! Who has tokens already gives them as [`Records`], which [`fits`], [`Room::parse`] and the entries take.
//!
//! It needs `core` and `alloc` alone, and no `std`.
#![no_std]
#![deny(unsafe_code, missing_docs)]

extern crate alloc;

mod answer;
mod check;
mod entry;
mod error;
mod event;
mod expected;
mod fits;
mod foreign;
mod index;
pub mod limits;
mod message;
mod mistakes;
mod numbered;
mod options;
mod refusal;
mod room;
mod span;
mod stored;
mod text;
mod token;
pub mod toml_parser;
mod version;

pub use answer::{Answer, TextAnswer};
pub use check::{check, Document, Trouble};
pub use entry::{parse_document, parse_key, parse_simple_key, parse_tokens, parse_value, Entry};
pub use error::ParseError;
pub use event::{Encoding, Event, EventKind};
pub use expected::Expected;
pub use fits::{fits, is_regular, text_fits, Verdict};
pub use index::{headers, Header, Headers, Index, Indexed};
pub use message::Message;
pub use mistakes::{mistakes, Mistakes};
pub use options::{Mode, Options};
pub use refusal::{Refusal, Refused};
pub use room::Room;
pub use span::Span;
pub use stored::Stored;
pub use text::{lex, parse_text, Lexed};
pub use token::{Records, Token, TokenKind};
pub use version::{version, VERSION};
