//! For the program that shows mistakes: all at once, each with its place, and what is around them kept.

mod common;

use common::records;
use deckmarten::limits::ERROR_SIZE;
use deckmarten::TokenKind::{Atom, Comment, Eof, Equals, Newline, Whitespace};
use deckmarten::{
    parse_key, parse_simple_key, parse_value, Answer, Encoding, Entry, EventKind, Expected, Message, Options, Records, Room,
    Span, Token,
};

#[test]
fn several_mistakes_are_reported_with_their_places() {
    let text = "[a\nb\nc=[1 '\n]\n]\n$";
    let mut room = Room::new();
    let records = records(text);
    let answer = room.parse(Entry::Document, records.as_bytes(), 0);
    let shown: Vec<String> = answer.errors().map(|error| error.to_string()).collect();
    assert_eq!(
        shown,
        [
            "line 1: unclosed table at 2..2, expected `]`",
            "line 2: key with no value at 4..4, expected `=`",
            "line 3: missing comma between array elements at 10..10, expected `,`",
            "line 5: missing table open at 14..14, expected `[`",
        ]
    );
}

#[test]
fn comments_and_whitespace_are_kept_with_their_text() {
    let text = "# a\n b = 1 # c\n";
    let lengths =
        [(Comment, 3), (Newline, 1), (Whitespace, 1), (Atom, 1), (Whitespace, 1), (Equals, 1), (Whitespace, 1), (Atom, 1)];
    let lengths = lengths.into_iter().chain([(Whitespace, 1), (Comment, 3), (Newline, 1), (Eof, 0)]);
    let records: Records = lengths.map(|(kind, length)| Token::new(kind, length)).collect();
    let mut room = Room::new();
    let answer = room.parse(Entry::Document, records.as_bytes(), 0);
    assert!(answer.is_quiet());
    let comments: Vec<&str> =
        answer.events().filter(|event| event.kind == EventKind::Comment).map(|event| &text[event.span.range()]).collect();
    assert_eq!(comments, ["# a", "# c"]);
    // the events of a quiet run are the whole text, piece by piece
    assert_eq!(answer.events().map(|event| &text[event.span.range()]).collect::<String>(), text);
}

#[test]
fn places_start_at_base() {
    let mut room = Room::new();
    let records = records("a=$");
    let answer = room.parse(Entry::Document, records.as_bytes(), 100);
    assert_eq!(answer.events().map(|event| event.span.to_string()).collect::<Vec<_>>(), ["100..101", "101..102", "102..102"]);
}

#[test]
fn keys_and_values_have_entries_of_their_own() {
    let (mut events, mut errors) = ([0; 40], [0; 10 * ERROR_SIZE]);
    let kinds = |answer: Answer| answer.events().map(|event| event.kind).collect::<Vec<_>>();
    let key = parse_key(records("a.'").as_bytes(), 0, Options::default(), &mut events, &mut errors);
    assert!(key.is_quiet());
    assert_eq!(key.events().last().unwrap().encoding, Some(Encoding::LiteralString));
    assert_eq!(kinds(key), [EventKind::SimpleKey, EventKind::KeySep, EventKind::SimpleKey]);
    let part = parse_simple_key(records("B").as_bytes(), 0, Options::default(), &mut events, &mut errors);
    let error = part.errors().next().unwrap();
    assert_eq!((error.message, error.expected.number()), (Message::InvalidKey, 14));
    let value = parse_value(records("[1,}").as_bytes(), 0, Options::default(), &mut events, &mut errors);
    assert_eq!(kinds(value)[3..], [EventKind::InlineTableOpen, EventKind::InlineTableClose, EventKind::ArrayClose]);
    let error = value.errors().next().unwrap();
    assert_eq!((error.expected, error.context), (Expected::LeftCurlyBracket, Span { start: 3, end: 4 }));
}
