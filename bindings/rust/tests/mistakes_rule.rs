//! The rule of mistakes once more, written apart from the library, and held to it on every short text and on the files of examples/toml.

use std::path::Path;

use deckmarten::{mistakes, EventKind, Expected, Message, ParseError, Room, Span, TextAnswer};

/// What the events alone show: a message and its place.
fn pieces(answer: &TextAnswer) -> Vec<(Message, Span)> {
    let (mut found, mut skipping): (Vec<(Message, Span)>, bool) = (Vec::new(), false);
    for event in answer.events() {
        let message = match event.kind {
            EventKind::Error if skipping => {
                found.last_mut().expect("skipped text has begun").1.end = event.span.end;
                continue;
            }
            EventKind::Error => Message::TextSkipped,
            EventKind::SimpleKey if event.span.is_empty() => Message::KeyMissing,
            EventKind::Scalar if event.span.is_empty() => Message::ValueMissing,
            EventKind::ArrayClose | EventKind::InlineTableClose if event.span.is_empty() => Message::BracketNotClosed,
            _ if event.span.is_empty() => Message::SomethingMissing,
            EventKind::SimpleKey if event.is_multi_line_key() => Message::MultiLineStringAsKey,
            EventKind::Whitespace => continue,
            _ => {
                skipping = false;
                continue;
            }
        };
        skipping = event.kind == EventKind::Error;
        found.push((message, event.span));
    }
    found
}

/// The line of a place: one more than the Newline tokens that end at or before it. Of these texts each is a newline event.
fn line(answer: &TextAnswer, place: u32) -> u32 {
    1 + answer.events().filter(|event| event.kind == EventKind::Newline && event.span.end <= place).count() as u32
}

/// The errors that start before a piece go before it. If the next one starts where the piece does, it accounts for it, unless the piece is a multi-line key.
fn expected(answer: &TextAnswer) -> Vec<ParseError> {
    let (mut list, mut errors) = (Vec::new(), answer.errors().peekable());
    for (message, place) in pieces(answer) {
        let goes_before = |error: &ParseError| match message {
            Message::BracketNotClosed => error.unexpected.start != place.start,
            _ => error.unexpected.start < place.start,
        };
        while let Some(error) = errors.next_if(goes_before) {
            list.push(error);
        }
        let accounted = errors.peek().is_some_and(|error| error.unexpected.start == place.start);
        if message == Message::MultiLineStringAsKey || !accounted {
            list.push(silent(answer, message, place));
        }
    }
    list.extend(errors);
    list
}

/// A mistake that no error says. An error is not made by hand, so one of a text that has it is taken and changed.
fn silent(answer: &TextAnswer, message: Message, place: Span) -> ParseError {
    let mut room = Room::new();
    let mut error = room.parse_text(b"a").errors().next().expect("a key alone is an error");
    error.message = message;
    error.expected = match message {
        Message::KeyMissing => Expected::Key,
        Message::ValueMissing => Expected::Value,
        Message::MultiLineStringAsKey => Expected::LiteralStringBasicStringOrUnquotedString,
        _ => Expected::Nothing,
    };
    (error.context, error.unexpected, error.line) = (place, place, line(answer, place.start));
    error
}

/// Compares a text, and answers how many of its mistakes are silent.
fn compare(room: &mut Room, text: &[u8]) -> usize {
    let answer = room.parse_text(text);
    if answer.refusal().is_some() {
        return 0;
    }
    let found = mistakes(answer.records(), answer.base(), &answer).expect("it was not refused");
    assert_eq!(found, expected(&answer), "{:?}", String::from_utf8_lossy(text));
    assert!(found.iter().all(|mistake| mistake.message < Message::BracketNotClosed), "{:?}", String::from_utf8_lossy(text));
    found.iter().filter(|mistake| mistake.message.is_silent()).count()
}

#[test]
fn every_short_text() {
    const SYMBOLS: [&str; 13] = ["a", ".", "=", ",", "[", "]", "{", "}", " ", "#", "\n", "'''", "'"];
    let (mut room, mut silent) = (Room::new(), 0);
    for head in ["", "x={", "x=[", "\u{feff}[a\n"] {
        for length in 0..=3 {
            for turn in 0..SYMBOLS.len().pow(length) {
                let text: String = (0..length).map(|at| SYMBOLS[turn / SYMBOLS.len().pow(at) % SYMBOLS.len()]).collect();
                silent += compare(&mut room, format!("{head}{text}").as_bytes());
            }
        }
    }
    assert!(silent > 1_000, "{silent} silent mistakes");
}

/// The files, each whole and with one byte left out, at some places.
#[test]
fn files() {
    let (mut room, mut tried) = (Room::new(), 0);
    let folder = Path::new(env!("CARGO_MANIFEST_DIR")).join("../../examples/toml");
    for folder in [folder.join("broken"), folder] {
        for entry in std::fs::read_dir(folder).unwrap() {
            let path = entry.unwrap().path();
            if !path.extension().is_some_and(|name| name == "toml") {
                continue;
            }
            let text = std::fs::read(path).unwrap();
            for at in (0..text.len()).step_by(1 + text.len() / 20) {
                compare(&mut room, &[&text[..at], &text[at + 1..]].concat());
            }
            compare(&mut room, &text);
            tried += 1;
        }
    }
    assert!(tried > 40, "{tried} files");
}
