//! The drop-in for toml_parser: what is not as in the Rust. bindings/rust/drop_in compares the rest with it.

use deckmarten::toml_parser::decoder::Encoding;
use deckmarten::toml_parser::lexer::{Token, TokenKind};
use deckmarten::toml_parser::parser::{parse_document, EventReceiver};
use deckmarten::toml_parser::{ErrorSink, ParseError, Source, Span};

/// Keeps the names of events, and answers at opens as it is told.
struct Names(Vec<&'static str>, bool);
/// Keeps what reports say, and where.
struct Said(Vec<(&'static str, usize)>);

macro_rules! kept {
    ($($name:ident)+) => {
        $(fn $name(&mut self, _span: Span, _error: &mut dyn ErrorSink) {
            self.0.push(stringify!($name));
        })+
    };
}

impl EventReceiver for Names {
    kept! {
        std_table_open std_table_close array_table_open array_table_close inline_table_close array_close key_sep key_val_sep value_sep
        whitespace comment newline error
    }

    fn simple_key(&mut self, _span: Span, _kind: Option<Encoding>, error: &mut dyn ErrorSink) {
        error.report_error(ParseError::new("the receiver's own"));
        self.0.push("simple_key");
    }

    fn scalar(&mut self, _span: Span, _kind: Option<Encoding>, _error: &mut dyn ErrorSink) {
        self.0.push("scalar");
    }

    fn array_open(&mut self, _span: Span, _error: &mut dyn ErrorSink) -> bool {
        self.0.push("array_open");
        self.1
    }

    fn inline_table_open(&mut self, _span: Span, _error: &mut dyn ErrorSink) -> bool {
        self.0.push("inline_table_open");
        self.1
    }
}

impl ErrorSink for Said {
    fn report_error(&mut self, error: ParseError) {
        self.0.push((error.description(), error.unexpected().map_or(usize::MAX, |span| span.start())));
    }
}

fn seen(tokens: &[Token], answer: bool) -> (Vec<&'static str>, Vec<(&'static str, usize)>) {
    let (mut names, mut said) = (Names(Vec::new(), answer), Said(Vec::new()));
    parse_document(tokens, &mut names, &mut said);
    (names.0, said.0)
}

#[test]
fn what_an_open_is_answered_is_not_heard() {
    let tokens = Source::new("a=[{b=1}]").lex().into_vec();
    let (names, _) = seen(&tokens, true);
    assert_eq!(names.len(), 9);
    assert_eq!(seen(&tokens, false).0, names);
}

#[test]
fn reports_of_the_receiver_come_before_those_of_the_run() {
    let tokens = Source::new("a\nb\n").lex().into_vec();
    let own = ("the receiver's own", usize::MAX);
    assert_eq!(seen(&tokens, true).1, [own, own, ("key with no value", 1), ("key with no value", 3)]);
}

#[test]
fn lists_that_no_text_gives_are_reported() {
    let token = |kind, start, end| Token::new(kind, Span::new_unchecked(start, end));
    let apart = "the tokens do not lie end to end";
    assert_eq!(seen(&[token(TokenKind::Atom, 0, 1), token(TokenKind::Eof, 2, 2)], true).1, [(apart, 2)]);
    assert_eq!(seen(&[token(TokenKind::Atom, 3, 1)], true).1, [(apart, 3)]);
    assert_eq!(seen(&[token(TokenKind::Dot, 0, 2)], true).1, [("a length wrong for its kind", 0)]);
    let far = usize::MAX;
    assert_eq!(seen(&[token(TokenKind::Eof, far, far)], true).1, [("`base`, or a record's end, above 16,777,216", far)]);
    assert_eq!(seen(&[token(TokenKind::Atom, 0, far)], true).1, [("`base`, or a record's end, above 16,777,216", 0)]);
    assert_eq!(seen(&[], true), (Vec::new(), Vec::new()));
}

#[test]
fn a_text_that_is_too_long_is_one_atom() {
    let text = "#".repeat(16_777_217);
    let tokens: Vec<Token> = Source::new(&text).lex().collect();
    assert_eq!(tokens.iter().map(Token::kind).collect::<Vec<_>>(), [TokenKind::Atom, TokenKind::Eof]);
    assert_eq!(seen(&tokens, true).1, [("`base`, or a record's end, above 16,777,216", 0)]);
}
