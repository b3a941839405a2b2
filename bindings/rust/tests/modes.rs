//! The modes: which comma is blamed in each, and that nothing else differs.

use std::fs;

use deckmarten::limits::{ERROR_SIZE, EVENT_SIZE};
use deckmarten::{parse_document, parse_tokens, parse_value, Entry, Message, Mode, Options, ParseError, Room, Token, TokenKind};

mod common;
use common::records;

const COMMA: Message = Message::TrailingCommasAreNotSupportedInInlineTables;
const BRACE: Options = Options::new().mode(Mode::Brace);
/// A text, and the unexpected start and end and the line of its last report of that message, in crate mode and in brace mode.
const BLAMED: [(&str, [usize; 3], [usize; 3]); 15] = [
    ("y=[1,\n2]\nx={a=}", [4, 5, 1], [14, 14, 3]),
    ("=[,{a}", [2, 3, 1], [5, 5, 1]),
    ("x={a=1,b={c=}}", [6, 7, 1], [12, 12, 1]),
    ("x={a=1,}", [6, 7, 1], [6, 7, 1]),
    ("x={a}", [4, 4, 1], [4, 4, 1]),
    ("x={a=}", [5, 5, 1], [5, 5, 1]),
    ("x={a=[1,2],b=}", [10, 11, 1], [10, 11, 1]),
    ("x={a=[1,2]b=}", [7, 8, 1], [7, 8, 1]),
    ("x={a={b=1,c=2}d}", [9, 10, 1], [9, 10, 1]),
    ("x={[,]a}", [4, 5, 1], [4, 5, 1]),
    ("x={a=1,[2,3]}", [9, 10, 1], [9, 10, 1]),
    ("x={a,}", [4, 5, 1], [4, 5, 1]),
    ("x={a=,}", [5, 6, 1], [5, 6, 1]),
    ("x={a=[{b=1,}]c}", [10, 11, 1], [10, 11, 1]),
    ("x={a=[\n1,\n2]b=}", [8, 9, 2], [8, 9, 2]),
];

fn errors(text: &[u8], options: Options) -> Vec<ParseError> {
    Room::with_options(options).parse_text(text).errors().collect()
}

#[test]
fn the_comma_that_is_blamed() {
    for (text, crate_mode, brace_mode) in BLAMED {
        for (options, wanted) in [(Options::default(), crate_mode), (BRACE, brace_mode)] {
            let all = errors(text.as_bytes(), options);
            let error = all.iter().rfind(|error| error.message == COMMA).unwrap();
            let range = error.unexpected.range();
            assert_eq!([range.start, range.end, error.line as usize], wanted, "{text:?} {options:?}");
        }
    }
}

/// The errors with the place of that message left out.
fn without_places(text: &[u8], options: Options) -> Vec<String> {
    let shown = |error: &ParseError| match error.message {
        COMMA => format!("{:?} {:?} {:?}", error.message, error.expected, error.context),
        _ => format!("{error:?}"),
    };
    errors(text, options).iter().map(shown).collect()
}

#[test]
fn nothing_else_differs() {
    let files = fs::read_dir("../../examples/toml/broken").unwrap().map(|file| fs::read(file.unwrap().path()).unwrap());
    for text in files.chain(BLAMED.iter().map(|case| case.0.as_bytes().to_vec())) {
        let (mut first, mut second) = (Room::new(), Room::with_options(BRACE));
        let (a, b) = (first.parse_text(&text), second.parse_text(&text));
        assert_eq!((a.refusal(), a.place(), a.records()), (b.refusal(), b.place(), b.records()));
        assert_eq!(a.events().collect::<Vec<_>>(), b.events().collect::<Vec<_>>());
        assert_eq!(a.is_quiet(), b.is_quiet());
        assert_eq!(without_places(&text, Options::default()), without_places(&text, BRACE));
    }
}

#[test]
fn each_entry_takes_the_options() {
    // `[,{a}` as a value; `=` before it as a document
    let at =
        |words: &[u32]| words.chunks_exact(ERROR_SIZE).find(|error| error[0] == COMMA.number()).map(|error| [error[4], error[5]]);
    let value = records("[,{a}");
    let document: Vec<Token> = {
        use TokenKind::*;
        let kinds = [Equals, LeftSquareBracket, Comma, LeftCurlyBracket, Atom, RightCurlyBracket];
        kinds.into_iter().map(|kind| Token::new(kind, 1)).chain([Token::new(Eof, 0)]).collect()
    };
    for (options, of_value, of_document) in [(Options::default(), [1, 2], [2, 3]), (BRACE, [4, 4], [5, 5])] {
        let (mut events, mut errors) = ([0; EVENT_SIZE * 32], [0; ERROR_SIZE * 8]);
        assert_eq!(parse_value(value.as_bytes(), 0, options, &mut events, &mut errors).refusal(), None);
        assert_eq!(at(&errors), Some(of_value));
        assert_eq!(parse_document(records("=[,{a}$").as_bytes(), 0, options, &mut events, &mut errors).refusal(), None);
        assert_eq!(at(&errors), Some(of_document));
        errors.fill(0);
        assert_eq!(parse_tokens(&document, 0, options, &mut events, &mut errors).refusal(), None);
        assert_eq!(at(&errors), Some(of_document));
        let mut room = Room::with_options(options);
        let answer = room.parse(Entry::Value, value.as_bytes(), 0);
        let error = answer.errors().find(|error| error.message == COMMA).unwrap();
        assert_eq!([error.unexpected.start, error.unexpected.end], of_value);
    }
}

#[test]
fn crate_mode_is_the_default() {
    assert_eq!(Options::default(), Options::new());
    assert_eq!(Options::new(), BRACE.mode(Mode::default()));
    assert_eq!(Mode::ALL, [Mode::Crate, Mode::Brace]);
    assert_eq!(Mode::from_number(2), None);
}
