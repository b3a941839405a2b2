//! The four entries, and what takes their events.

use super::decoder::Encoding;
use super::lexer::Token;
use super::{ErrorSink, ParseError, Span};
use crate::{Entry, Event, EventKind, Records, Refusal, Room};

/// Takes the events, in their order. What the two functions that open a value answer is not heard: all that is within them comes.
#[allow(missing_docs)] // the functions are the events, which docs/LAYOUT.md has
pub trait EventReceiver {
    fn std_table_open(&mut self, span: Span, error: &mut dyn ErrorSink);
    fn std_table_close(&mut self, span: Span, error: &mut dyn ErrorSink);
    fn array_table_open(&mut self, span: Span, error: &mut dyn ErrorSink);
    fn array_table_close(&mut self, span: Span, error: &mut dyn ErrorSink);
    #[must_use]
    fn inline_table_open(&mut self, span: Span, error: &mut dyn ErrorSink) -> bool;
    fn inline_table_close(&mut self, span: Span, error: &mut dyn ErrorSink);
    #[must_use]
    fn array_open(&mut self, span: Span, error: &mut dyn ErrorSink) -> bool;
    fn array_close(&mut self, span: Span, error: &mut dyn ErrorSink);
    fn simple_key(&mut self, span: Span, kind: Option<Encoding>, error: &mut dyn ErrorSink);
    fn key_sep(&mut self, span: Span, error: &mut dyn ErrorSink);
    fn key_val_sep(&mut self, span: Span, error: &mut dyn ErrorSink);
    fn scalar(&mut self, span: Span, kind: Option<Encoding>, error: &mut dyn ErrorSink);
    fn value_sep(&mut self, span: Span, error: &mut dyn ErrorSink);
    fn whitespace(&mut self, span: Span, error: &mut dyn ErrorSink);
    fn comment(&mut self, span: Span, error: &mut dyn ErrorSink);
    fn newline(&mut self, span: Span, error: &mut dyn ErrorSink);
    fn error(&mut self, span: Span, error: &mut dyn ErrorSink);
}

/// Reads tokens as a document.
pub fn parse_document(tokens: &[Token], receiver: &mut dyn EventReceiver, error: &mut dyn ErrorSink) {
    parse(Entry::Document, tokens, receiver, error);
}

/// Reads tokens as a key with its dots.
pub fn parse_key(tokens: &[Token], receiver: &mut dyn EventReceiver, error: &mut dyn ErrorSink) {
    parse(Entry::Key, tokens, receiver, error);
}

/// Reads tokens as one part of a key.
pub fn parse_simple_key(tokens: &[Token], receiver: &mut dyn EventReceiver, error: &mut dyn ErrorSink) {
    parse(Entry::SimpleKey, tokens, receiver, error);
}

/// Reads tokens as a value.
pub fn parse_value(tokens: &[Token], receiver: &mut dyn EventReceiver, error: &mut dyn ErrorSink) {
    parse(Entry::Value, tokens, receiver, error);
}

/// What a list that is refused for its places is reported as.
const APART: &str = "the tokens do not lie end to end";

/// Reads the tokens at an entry, and tells the receiver and the sink what came.
fn parse(entry: Entry, tokens: &[Token], receiver: &mut dyn EventReceiver, error: &mut dyn ErrorSink) {
    let (base, records) = match records(tokens) {
        Ok(list) => list,
        Err((refused, at)) => return error.report_error(refusal(refused, at)),
    };
    let mut room = Room::new();
    let answer = room.parse(entry, records.as_bytes(), base);
    answer.events().for_each(|event| tell(event, receiver, error));
    answer.errors().for_each(|report| error.report_error(report.into()));
    if let Some(refused) = answer.refusal() {
        // the place of each refusal that can come here is a token's number; of RECORDS there is one behind the most
        error.report_error(refusal(refused.text(), tokens[answer.place()].span()));
    }
}

/// The report that a list was refused, at this place.
fn refusal(text: &'static str, at: Span) -> ParseError {
    ParseError::new(text).with_context(at).with_expected(&[]).with_unexpected(at)
}

/// Where the first token starts, and the records of all; or why they have none, and where.
fn records(tokens: &[Token]) -> Result<(u32, Records), (&'static str, Span)> {
    let first = tokens.first().map_or(0, |token| token.span().start());
    let mut records = Records::with_capacity(tokens.len());
    let mut end = first;
    for token in tokens {
        let span = token.span();
        if span.start() != end || span.end() < end {
            return Err((APART, span));
        }
        end = span.end();
        let Ok(length) = u32::try_from(end - span.start()) else { return Err((Refusal::Bytes.text(), span)) };
        records.push(crate::Token::new(token.kind(), length));
    }
    match u32::try_from(first) {
        Ok(base) => Ok((base, records)),
        Err(_) => Err((Refusal::Bytes.text(), Span::new_unchecked(first, first))),
    }
}

/// Tells the receiver of an event.
fn tell(event: Event, to: &mut dyn EventReceiver, error: &mut dyn ErrorSink) {
    let (span, encoding) = (event.span.into(), event.encoding);
    match event.kind {
        EventKind::StdTableOpen => to.std_table_open(span, error),
        EventKind::StdTableClose => to.std_table_close(span, error),
        EventKind::ArrayTableOpen => to.array_table_open(span, error),
        EventKind::ArrayTableClose => to.array_table_close(span, error),
        EventKind::SimpleKey => to.simple_key(span, encoding, error),
        EventKind::KeySep => to.key_sep(span, error),
        EventKind::KeyValSep => to.key_val_sep(span, error),
        EventKind::Scalar => to.scalar(span, encoding, error),
        EventKind::ValueSep => to.value_sep(span, error),
        EventKind::ArrayOpen => drop(to.array_open(span, error)),
        EventKind::ArrayClose => to.array_close(span, error),
        EventKind::InlineTableOpen => drop(to.inline_table_open(span, error)),
        EventKind::InlineTableClose => to.inline_table_close(span, error),
        EventKind::Whitespace => to.whitespace(span, error),
        EventKind::Comment => to.comment(span, error),
        EventKind::Newline => to.newline(span, error),
        EventKind::Error => to.error(span, error),
    }
}
