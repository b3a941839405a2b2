//! The original parser twice: unchanged, and the copy with a counter of levels
//! that the build derives from it.

mod document;
mod event;

/// The derived copy; see build.rs for what differs.
mod counted {
    include!(concat!(env!("OUT_DIR"), "/document_counted.rs"));
}

pub use document::parse_document;
pub use document::parse_key;
pub use document::parse_simple_key;
pub use document::parse_value;
pub use event::CountingReceiver;
pub use event::EventReceiver;

pub use counted::parse_document as counted_document;
pub use counted::parse_key as counted_key;
pub use counted::parse_simple_key as counted_simple_key;
pub use counted::parse_value as counted_value;

use crate::lexer::Token;
use winnow::stream::Stream as _;
use winnow::stream::TokenSlice;

/// Asks for a level for the array or inline table that `open` begins. Without one
/// the walk ends here: the receiver hears where, and nothing is left to read.
fn enter_level(
    tokens: &mut TokenSlice<'_, Token>,
    open: &Token,
    receiver: &mut dyn CountingReceiver,
) -> bool {
    if receiver.enter() {
        return true;
    }
    let last = tokens.previous_tokens().next();
    let is_last = last.is_some_and(|last| std::ptr::eq(last, open));
    assert!(is_last, "the opening bracket is not the token last read");
    receiver.stop(tokens.previous_tokens().count() - 1);
    tokens.finish();
    false
}
