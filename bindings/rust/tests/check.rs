//! The check of a text: a document, its mistakes, or why it was not judged.

use deckmarten::{check, mistakes, text_fits, EventKind, Expected, Message, ParseError, Refusal, Room, Span, Trouble, Verdict};

fn found(text: &str) -> Vec<ParseError> {
    match check(text.as_bytes()) {
        Ok(_) => Vec::new(),
        Err(Trouble::Mistakes(mistakes)) => {
            assert_eq!(mistakes.count(), mistakes.iter().count());
            mistakes.iter().collect()
        }
        Err(trouble) => panic!("{text:?}: {trouble}"),
    }
}

/// Each mistake of a text as message, place and line.
fn places(text: &str) -> Vec<(Message, u32, u32, u32)> {
    let each = |mistake: &ParseError| (mistake.message, mistake.unexpected.start, mistake.unexpected.end, mistake.line);
    found(text).iter().map(each).collect()
}

#[test]
fn what_the_rust_is_silent_about_is_listed() {
    use Message::{KeyMissing, MultiLineStringAsKey, TextSkipped, ValueMissing};
    assert_eq!(places("[=ledger]\n"), [(KeyMissing, 1, 1, 1), (TextSkipped, 1, 9, 1)]);
    assert_eq!(places("[]\n"), [(KeyMissing, 1, 1, 1)]);
    assert_eq!(places("x = 1\na=\n"), [(ValueMissing, 8, 8, 2)]);
    assert_eq!(places("'''a''' = 1\n"), [(MultiLineStringAsKey, 0, 7, 1)]);
    for mistake in ["[=ledger]\n", "[]\n", "a=\n", "'''a''' = 1\n"].into_iter().flat_map(found) {
        assert!(mistake.message.is_silent());
        assert_eq!(mistake.context, mistake.unexpected);
    }
}

#[test]
fn what_was_reported_is_listed_as_it_is() {
    let text = "[[a]\nb\nc=[1 'x'\n]\n]\n";
    let mut room = Room::new();
    let answer = room.parse_text(text.as_bytes());
    let errors: Vec<ParseError> = answer.errors().collect();
    assert_eq!(errors.len(), 4);
    let listed = found(text);
    let reported: Vec<ParseError> = listed.iter().copied().filter(|mistake| !mistake.message.is_silent()).collect();
    assert_eq!(reported, errors);
    assert_eq!(mistakes(answer.records(), answer.base(), &answer), Ok(listed));
}

#[test]
fn mistakes_are_sorted_for_whoever_shows_them() {
    // the inner array ends behind the newline, the outer one is looked for before it
    let Err(Trouble::Mistakes(mistakes)) = check(b"x=[[\n") else { panic!("it has mistakes") };
    let starts = |list: Vec<ParseError>| list.iter().map(|mistake| mistake.unexpected.start).collect::<Vec<_>>();
    assert_eq!(starts(mistakes.iter().collect()), [5, 4]);
    assert_eq!(starts(mistakes.by_place()), [4, 5]);
    assert_eq!((&mistakes).into_iter().count(), 2);
}

#[test]
fn no_mistake_is_a_document() {
    let text = "\u{feff}# größe\n[jobs.main]\nledger = '日本'\n[jobs.mail]\n";
    let document = check(text.as_bytes()).unwrap();
    assert_eq!(document.text(), text.as_bytes());
    let pieces: String = document.events().map(|event| document.piece(event.span)).collect();
    assert_eq!(pieces, text[3..]);
    let index = document.index();
    assert_eq!(index.headers().count(), 2);
    let header = index.find(document.text(), "jobs.main").unwrap();
    let values = document.events_of(&header).filter(|event| event.kind == EventKind::Scalar);
    assert_eq!(values.map(|event| document.piece(event.span)).collect::<Vec<_>>(), ["'日本'"]);
    // a span of another text is nothing here
    assert_eq!(document.piece(Span { start: 5, end: 5000 }), "");
    assert_eq!(document.piece(Span { start: 4, end: 3 }), "");
    assert_eq!(check(b"").unwrap().events().len(), 0);
}

#[test]
fn what_is_not_judged_has_its_byte() {
    let refused = |text: &[u8]| match check(text) {
        Err(Trouble::Refused { refused, byte }) => (refused.refusal, refused.place, byte),
        _ => panic!("it is to be refused"),
    };
    assert_eq!(refused(b"a = '\xff'"), (Refusal::NotUtf8, 5, 5));
    assert_eq!(refused(&vec![b'#'; 16_777_217]), (Refusal::TextTooLong, 16_777_216, 16_777_216));
    assert_eq!(refused("a.".repeat(40_000).as_bytes()), (Refusal::Records, 65_536, 65_536));
    assert_eq!(refused(format!("xyz = {}", "[".repeat(65)).as_bytes()), (Refusal::Depth, 68, 70));
    assert_eq!(refused(format!("\u{feff}x={}", "[".repeat(65)).as_bytes()), (Refusal::Depth, 66, 69));
    assert_eq!(check(b"\xff").unwrap_err().to_string(), "not judged: a text that is not UTF-8, at byte 0");
    assert_eq!(check(b"[=ledger]").unwrap_err().to_string(), "2 mistakes");
    assert_eq!(check(b"[").unwrap_err().to_string(), "1 mistake");
}

/// Every text of up to three of these symbols: no mistake exactly if the verdict is yes, and none but those beyond 100 where nothing was reported.
#[test]
fn the_list_is_empty_exactly_where_the_text_fits() {
    const SYMBOLS: [&str; 12] = ["a", ".", "=", ",", "[", "]", "{", "}", " ", "#", "\n", "'''"];
    let (mut room, mut yes, mut silent) = (Room::new(), 0, 0);
    for length in 0..=3 {
        for turn in 0..SYMBOLS.len().pow(length) {
            let text: String = (0..length).map(|at| SYMBOLS[turn / SYMBOLS.len().pow(at) % SYMBOLS.len()]).collect();
            let listed = found(&text);
            assert_eq!(listed.is_empty(), text_fits(text.as_bytes()) == Verdict::Fits, "{text:?}");
            let errors = room.parse_text(text.as_bytes()).error_count();
            assert_eq!(listed.iter().filter(|mistake| !mistake.message.is_silent()).count(), errors, "{text:?}");
            yes += usize::from(listed.is_empty());
            silent += usize::from(!listed.is_empty() && errors == 0);
        }
    }
    assert!(yes > 50 && silent > 50, "{yes} texts fit, and of {silent} the Rust says nothing");
}

#[test]
fn expected_things_of_silent_mistakes() {
    let expected = |text: &str| found(text).iter().map(|mistake| mistake.expected).collect::<Vec<_>>();
    assert_eq!(expected("[=ledger]\n"), [Expected::Key, Expected::Nothing]);
    assert_eq!(expected("a=\n"), [Expected::Value]);
    assert_eq!(expected("'''a''' = 1\n"), [Expected::LiteralStringBasicStringOrUnquotedString]);
}
