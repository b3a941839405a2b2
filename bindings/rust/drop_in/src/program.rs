// A program as users of toml_parser write it: it keeps all that its receiver and its sink see. It is compiled twice, and `toml_parser` is what the module around
// it calls so. Nothing else differs.

use toml_parser::decoder::Encoding;
use toml_parser::lexer::Token;
use toml_parser::parser::{parse_document, parse_key, parse_simple_key, parse_value, EventReceiver};
use toml_parser::{ErrorSink, Expected, ParseError, Source, Span};

use crate::seen::{Event, Places, Report, Run, Seen};

struct Receiver(Vec<Event>);
struct Sink(Vec<Report>);

fn places(span: Span) -> Places {
    assert_eq!((span.before().end(), span.after().start()), (span.start(), span.end()));
    (span.start(), span.end())
}

macro_rules! kept {
    ($($name:ident)+) => {
        $(fn $name(&mut self, span: Span, _error: &mut dyn ErrorSink) {
            self.0.push((stringify!($name), places(span), None));
        })+
    };
}

impl EventReceiver for Receiver {
    kept! {
        std_table_open std_table_close array_table_open array_table_close inline_table_close array_close key_sep key_val_sep value_sep
        whitespace comment newline error
    }

    fn simple_key(&mut self, span: Span, kind: Option<Encoding>, _error: &mut dyn ErrorSink) {
        self.0.push(("simple_key", places(span), kind.map(|kind| kind.description())));
    }

    fn scalar(&mut self, span: Span, kind: Option<Encoding>, _error: &mut dyn ErrorSink) {
        self.0.push(("scalar", places(span), kind.map(|kind| kind.description())));
    }

    fn array_open(&mut self, span: Span, _error: &mut dyn ErrorSink) -> bool {
        self.0.push(("array_open", places(span), None));
        true
    }

    fn inline_table_open(&mut self, span: Span, _error: &mut dyn ErrorSink) -> bool {
        self.0.push(("inline_table_open", places(span), None));
        true
    }
}

impl ErrorSink for Sink {
    fn report_error(&mut self, error: ParseError) {
        let expected = error.expected().map(|list| list.iter().map(named).collect());
        self.0.push(Report {
            description: error.description(),
            context: error.context().map(places),
            expected,
            unexpected: error.unexpected().map(places),
        });
    }
}

#[allow(unreachable_patterns)] // another case may be added
fn named(expected: &Expected) -> (&'static str, &'static str) {
    match expected {
        Expected::Literal(text) => ("literal", text),
        Expected::Description(text) => ("description", text),
        _ => ("other", ""),
    }
}

/// What the lexer gives for a text, and what each entry gives for its tokens, with and without the last of them.
pub fn seen(text: &str) -> Seen {
    let tokens: Vec<Token> = Source::new(text).lex().into_vec();
    assert!(Source::new(text).lex().eq(tokens.iter().copied()));
    let mut seen = Seen::default();
    for token in &tokens {
        seen.tokens.push((format!("{:?}", token.kind()), places(token.span())));
    }
    for list in [&tokens[..], &tokens[..tokens.len() - 1]] {
        for parse in [parse_document, parse_key, parse_simple_key, parse_value] {
            let (mut receiver, mut sink) = (Receiver(Vec::new()), Sink(Vec::new()));
            parse(list, &mut receiver, &mut sink);
            seen.runs.push(Run { events: receiver.0, reports: sink.0 });
        }
    }
    seen
}
