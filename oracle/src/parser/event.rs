//! Stand-in for toml_parser's `EventReceiver`, and the counting receiver that only
//! the derived copy knows.
//!
//! Taken for granted: one function for each of the seventeen events, the two that
//! open a value answering whether to walk into it.

use crate::decoder::Encoding;
use crate::ErrorSink;
use crate::Span;

/// Takes the events in the order they are given.
pub trait EventReceiver {
    fn std_table_open(&mut self, span: Span, error: &mut dyn ErrorSink);
    fn std_table_close(&mut self, span: Span, error: &mut dyn ErrorSink);
    fn array_table_open(&mut self, span: Span, error: &mut dyn ErrorSink);
    fn array_table_close(&mut self, span: Span, error: &mut dyn ErrorSink);
    #[must_use]
    fn inline_table_open(&mut self, span: Span, error: &mut dyn ErrorSink) -> bool;
    fn inline_table_close(&mut self, span: Span, error: &mut dyn ErrorSink);
    #[must_use]
    fn array_open(&mut self, span: Span, error: &mut dyn ErrorSink) -> bool;
    fn array_close(&mut self, span: Span, error: &mut dyn ErrorSink);
    fn simple_key(&mut self, span: Span, kind: Option<Encoding>, error: &mut dyn ErrorSink);
    fn key_sep(&mut self, span: Span, error: &mut dyn ErrorSink);
    fn key_val_sep(&mut self, span: Span, error: &mut dyn ErrorSink);
    fn scalar(&mut self, span: Span, kind: Option<Encoding>, error: &mut dyn ErrorSink);
    fn value_sep(&mut self, span: Span, error: &mut dyn ErrorSink);
    fn whitespace(&mut self, span: Span, error: &mut dyn ErrorSink);
    fn comment(&mut self, span: Span, error: &mut dyn ErrorSink);
    fn newline(&mut self, span: Span, error: &mut dyn ErrorSink);
    fn error(&mut self, span: Span, error: &mut dyn ErrorSink);
}

/// A receiver that also counts unfinished real arrays and inline tables. Not in
/// the original.
pub trait CountingReceiver: EventReceiver {
    /// Takes a level, or answers false if all are taken.
    fn enter(&mut self) -> bool;
    /// Gives a level back.
    fn leave(&mut self);
    /// Hears that the walk ends before the open event of this record.
    fn stop(&mut self, record: usize);
}
