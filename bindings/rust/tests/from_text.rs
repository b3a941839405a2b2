//! From a text: its tokens, its events and the verdict, with and without a byte order mark; what is refused, and where; what stays untouched.

use deckmarten::limits::{enough_error_words, enough_event_words, enough_records, MAX_BYTES, MAX_RECORDS, RECORD_SIZE};
use deckmarten::{
    lex, parse_document, parse_text, text_fits, EventKind, Message, Options, Refusal, Refused, Room, TokenKind, Verdict,
};

const JOB: &str = "[jobs.main]\nledger = \"main.db\" # nightly\n";

fn refused(refusal: Refusal, place: usize) -> Refused {
    Refused { refusal, place }
}

#[test]
fn spans_index_the_text_behind_a_byte_order_mark_too() {
    let mut room = Room::new();
    for (text, base) in [(JOB.to_string(), 0), (format!("\u{feff}{JOB}"), 3)] {
        let lexed = lex(text.as_bytes()).unwrap();
        assert_eq!(lexed.base, base);
        assert_eq!(lexed.tokens().map(|(_, place)| &text[place.range()]).collect::<String>(), JOB);
        let strings: Vec<&str> = lexed
            .tokens()
            .filter(|(token, _)| token.kind == TokenKind::BasicString)
            .map(|(_, place)| &text[place.range()])
            .collect();
        assert_eq!(strings, ["\"main.db\""]);

        let answer = room.parse_text(text.as_bytes());
        assert!(answer.is_quiet());
        assert_eq!((answer.base(), answer.record_count()), (base, lexed.records.count()));
        assert_eq!(answer.records(), lexed.records.as_bytes());
        // the events of a quiet run are the whole text, piece by piece
        assert_eq!(answer.events().map(|event| &text[event.span.range()]).collect::<String>(), JOB);
        let keys: Vec<&str> =
            answer.events().filter(|event| event.kind == EventKind::SimpleKey).map(|event| &text[event.span.range()]).collect();
        assert_eq!(keys, ["jobs", "main", "ledger"]);
        assert_eq!(text_fits(text.as_bytes()), Verdict::Fits);
    }
}

#[test]
fn errors_show_the_text_behind_a_byte_order_mark() {
    let text = "\u{feff}x = [1 \"b\"]\n";
    let mut room = Room::new();
    let answer = room.parse_text(text.as_bytes());
    let error = answer.errors().next().unwrap();
    assert_eq!(error.message, Message::MissingCommaBetweenArrayElements);
    assert_eq!((&text[error.context.range()], error.unexpected.to_string()), ("[", "10..10".to_string()));
}

#[test]
fn the_slip_that_this_is_about_is_a_no() {
    let text = b"[=ledger]\n";
    let mut room = Room::new();
    let answer = room.parse_text(text);
    assert_eq!((answer.refusal(), answer.error_count(), answer.is_quiet()), (None, 0, false));
    assert_eq!(text_fits(text), Verdict::DoesNotFit);
}

/// What docs/USING.md says that a yes does not promise.
#[test]
fn a_yes_does_not_promise() {
    for text in [
        "a = '''\n[jobs]\n",
        "a = \"",
        "a = '\nb = 1\n",
        "a = 1\rb = 2\r",
        "a = \"\\q\"",
        "a = 1979-99-99",
        "+ = b",
        "a = 1\na = 1\n",
    ] {
        assert_eq!(text_fits(text.as_bytes()), Verdict::Fits, "{text:?}");
        assert!(Room::new().parse_text(text.as_bytes()).is_quiet(), "{text:?}");
    }
    // the never closed string is one scalar up to the end
    let mut room = Room::new();
    let answer = room.parse_text(b"a = '''\n[jobs]\n");
    assert_eq!(answer.events().last().unwrap().span.range(), 4..15);
}

#[test]
fn bytes_that_are_not_utf8_are_refused_where_rust_finds_them() {
    let mut room = Room::new();
    // every two bytes alone, behind an umlaut, and before a letter
    for (first, second) in
        (0..=255).flat_map(|first| [0, 0x41, 0x7f, 0x80, 0x8f, 0x90, 0x9f, 0xa0, 0xbf, 0xc0, 0xff].map(|second| (first, second)))
    {
        for text in [
            vec![first, second],
            vec![0xc3, 0xa9, first, second],
            vec![first, second, 0x80, b'a'],
            vec![first, second, 0x80, 0xbf],
        ] {
            let wanted = std::str::from_utf8(&text).err().map(|error| refused(Refusal::NotUtf8, error.valid_up_to()));
            assert_eq!(lex(&text).err(), wanted, "{text:x?}");
            let answer = room.parse_text(&text);
            assert_eq!(answer.refusal().map(|refusal| refused(refusal, answer.place())), wanted, "{text:x?}");
            if let Some(wanted) = wanted {
                assert_eq!((answer.base(), answer.record_count(), answer.event_count(), answer.error_count()), (0, 0, 0, 0));
                assert_eq!(text_fits(&text), Verdict::Refused(wanted));
            }
        }
    }
}

#[test]
fn texts_beyond_the_limits_are_refused() {
    let mut text = vec![b' '; MAX_BYTES as usize];
    text[0] = b'#';
    assert_eq!(text_fits(&text), Verdict::Fits);
    text.push(0xff);
    let too_long = refused(Refusal::TextTooLong, MAX_BYTES as usize);
    assert_eq!((lex(&text).unwrap_err(), text_fits(&text)), (too_long, Verdict::Refused(too_long)));

    let lines = "\n".repeat(MAX_RECORDS);
    assert_eq!(lex(lines.as_bytes()).unwrap().records.count(), MAX_RECORDS + 1);
    assert_eq!(text_fits(lines.as_bytes()), Verdict::Refused(refused(Refusal::Records, MAX_RECORDS)));
    assert_eq!(text_fits(&lines.as_bytes()[1..]), Verdict::Fits);
    let mut room = Room::new();
    let answer = room.parse_text(lines.as_bytes());
    assert_eq!((answer.refusal(), answer.place()), (Some(Refusal::Records), MAX_RECORDS));
    assert_eq!((answer.record_count(), answer.event_count(), answer.error_count()), (MAX_RECORDS + 1, 0, 0));

    let nested = |levels| format!("a={}{}", "[".repeat(levels), "]".repeat(levels));
    assert_eq!(text_fits(nested(64).as_bytes()), Verdict::Fits);
    assert_eq!(text_fits(nested(65).as_bytes()), Verdict::Refused(refused(Refusal::Depth, 66)));
}

/// In every room from none to enough the joined entry is the lexer and then the document entry, and leaves the rest of each buffer alone.
#[test]
fn every_room_is_filled_as_far_as_it_goes() {
    for text in ["", "[[a]\n", "\u{feff}x={a=["] {
        let lexed = lex(text.as_bytes()).unwrap();
        let count = lexed.records.count();
        for record_bytes in 0..RECORD_SIZE * (count + 1) {
            for (event_words, error_words) in (0..40).flat_map(|words| [(words, 40), (40, words), (words, 0), (words, words)]) {
                let (mut records, mut events, mut errors) = (vec![7; record_bytes], vec![7; event_words], vec![7; error_words]);
                let (mut wanted_records, mut wanted_events, mut wanted_errors) =
                    (records.clone(), events.clone(), errors.clone());
                let answer = parse_text(text.as_bytes(), Options::default(), &mut records, &mut events, &mut errors);
                if record_bytes / RECORD_SIZE < count {
                    assert_eq!((answer.refusal(), answer.place(), answer.base()), (Some(Refusal::Tokens), 0, 0));
                    assert_eq!((answer.record_count(), answer.event_count(), answer.error_count()), (count, 0, 0));
                    assert!(answer.records().is_empty());
                } else {
                    let wanted = parse_document(
                        lexed.records.as_bytes(),
                        lexed.base,
                        Options::default(),
                        &mut wanted_events,
                        &mut wanted_errors,
                    );
                    assert_eq!(format!("{:?}", *answer), format!("{wanted:?}"));
                    assert_eq!((answer.base(), answer.record_count()), (lexed.base, count));
                    wanted_records[..RECORD_SIZE * count].copy_from_slice(lexed.records.as_bytes());
                }
                assert_eq!((records, events, errors), (wanted_records, wanted_events, wanted_errors));
            }
        }
    }
}

#[test]
fn a_room_serves_texts_and_lists_in_turn() {
    let mut room = Room::new();
    for text in [JOB, "", "[[a]\n", "\u{feff}", JOB] {
        let wanted = lex(text.as_bytes()).unwrap();
        let (mut events, mut errors) =
            (vec![0; enough_event_words(wanted.records.count())], vec![0; enough_error_words(wanted.records.count())]);
        let alone = parse_document(wanted.records.as_bytes(), wanted.base, Options::default(), &mut events, &mut errors);
        let answer = room.parse_text(text.as_bytes());
        assert!(answer.events().eq(alone.events()) && answer.errors().eq(alone.errors()), "{text:?}");
        let answer = room.parse(deckmarten::Entry::Document, wanted.records.as_bytes(), wanted.base);
        assert!(answer.events().eq(alone.events()) && answer.errors().eq(alone.errors()), "{text:?}");
        assert!(wanted.records.count() <= enough_records(text.len()));
    }
}

#[test]
fn a_stack_of_256_kib_is_enough() {
    let deep = format!("a={}{}\n", "{a=".repeat(64), "}".repeat(64)).replace("{a=}", "{}");
    let many = "a=[1 \"b\"]\n".repeat(8_000);
    let thread = std::thread::Builder::new().stack_size(256 * 1024).spawn(move || {
        assert_eq!(text_fits(deep.as_bytes()), Verdict::Fits);
        assert!(Room::new().parse_text(deep.as_bytes()).is_quiet());
        let mut room = Room::new();
        assert_eq!(room.parse_text(many.as_bytes()).error_count(), 8_000);
    });
    thread.unwrap().join().unwrap();
}
