//! document.rs, with a receiver and a sink that write into the same words as the library, and lexer/mod.rs before it.

use oracle::decoder::Encoding;
use oracle::lexer::Token;
use oracle::numbers::ERROR_WORDS;
use oracle::parser;
use oracle::parser::EventReceiver;
use oracle::ErrorSink;
use oracle::ParseError;
use oracle::Source;
use oracle::Span;

use crate::Buffers;
use crate::Counts;

/// One walk over tokens that are ready. What callgrind counts under this name is the Rust's side.
#[inline(never)]
pub fn walk(tokens: &[Token], buffers: &mut Buffers) -> Counts {
    let mut events = Events {
        words: &mut buffers.events,
        count: 0,
    };
    let mut errors = Errors {
        words: &mut buffers.errors,
        count: 0,
    };
    parser::parse_document(tokens, &mut events, &mut errors);
    Counts {
        events: events.count,
        errors: errors.count,
    }
}

/// From bytes to events: the text is seen to be UTF-8, lexed into a list, and walked. What callgrind counts under this name is the
/// Rust's side.
#[inline(never)]
pub fn text(bytes: &[u8], buffers: &mut Buffers) -> Counts {
    let tokens = lex(bytes);
    walk(&tokens, buffers)
}

/// From bytes to tokens.
#[inline(never)]
pub fn lex(bytes: &[u8]) -> Vec<Token> {
    let text = std::str::from_utf8(bytes).expect("the texts are UTF-8");
    Source::new(text).lex().into_vec()
}

/// Four words an event; what does not fit is counted.
struct Events<'a> {
    words: &'a mut [u32],
    count: usize,
}

impl Events<'_> {
    fn put(&mut self, kind: u32, encoding: u32, span: Span) {
        let at = 4 * self.count;
        if let Some(place) = self.words.get_mut(at..at + 4) {
            place.copy_from_slice(&[kind, encoding, span.start() as u32, span.end() as u32]);
        }
        self.count += 1;
    }
}

/// The number of an encoding; 0 is none.
fn number(encoding: Option<Encoding>) -> u32 {
    encoding.map_or(0, |encoding| encoding as u32 + 1)
}

/// The functions of events that carry a span alone, with their numbers.
macro_rules! plain_events {
    ($($name:ident $number:literal),*) => {
        $(fn $name(&mut self, span: Span, _error: &mut dyn ErrorSink) {
            self.put($number, 0, span);
        })*
    };
}

impl EventReceiver for Events<'_> {
    plain_events!(std_table_open 1, std_table_close 2, array_table_open 3, array_table_close 4);
    plain_events!(key_sep 6, key_val_sep 7, value_sep 9, array_close 11, inline_table_close 13);
    plain_events!(whitespace 14, comment 15, newline 16, error 17);

    fn simple_key(&mut self, span: Span, kind: Option<Encoding>, _error: &mut dyn ErrorSink) {
        self.put(5, number(kind), span);
    }

    fn scalar(&mut self, span: Span, kind: Option<Encoding>, _error: &mut dyn ErrorSink) {
        self.put(8, number(kind), span);
    }

    fn array_open(&mut self, span: Span, _error: &mut dyn ErrorSink) -> bool {
        self.put(10, 0, span);
        true
    }

    fn inline_table_open(&mut self, span: Span, _error: &mut dyn ErrorSink) -> bool {
        self.put(12, 0, span);
        true
    }
}

/// All words of an error but its line, which the Rust does not give; what does not fit is counted. For message and expected the address
/// of the Rust's text and list is written: to look up their numbers would cost more, and the Rust does not need it.
struct Errors<'a> {
    words: &'a mut [u32],
    count: usize,
}

impl ErrorSink for Errors<'_> {
    fn report_error(&mut self, error: ParseError) {
        let at = ERROR_WORDS * self.count;
        if let Some(place) = self.words.get_mut(at..at + ERROR_WORDS) {
            let context = error.context().unwrap_or_default();
            let unexpected = error.unexpected().unwrap_or_default();
            place[..ERROR_WORDS - 1].copy_from_slice(&[
                error.description().as_ptr() as u32,
                error.expected().unwrap_or_default().as_ptr() as u32,
                context.start() as u32,
                context.end() as u32,
                unexpected.start() as u32,
                unexpected.end() as u32,
            ]);
        }
        self.count += 1;
    }
}
