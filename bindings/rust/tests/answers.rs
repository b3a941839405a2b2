//! Every refusal with its place, what is left untouched, the bounds, and the numbers.

mod common;

use common::records;
use deckmarten::limits::{enough_error_words, enough_event_words, ERROR_SIZE, MAX_DEPTH, MAX_RECORDS};
use deckmarten::{
    parse_document, parse_tokens, Encoding, Entry, EventKind, Expected, Message, Options, Refusal, Room, TokenKind,
};

/// Refusal, place and counts of the bytes as a document.
fn answered(bytes: &[u8], base: u32) -> (Option<Refusal>, usize, usize, usize) {
    let mut room = Room::new();
    let answer = room.parse(Entry::Document, bytes, base);
    (answer.refusal(), answer.place(), answer.event_count(), answer.error_count())
}

#[test]
fn wrong_lists_are_refused_with_their_place() {
    let good = records("a=1$");
    let with = |at: usize, byte: u8| {
        let mut bytes = good.as_bytes().to_vec();
        bytes[at] = byte;
        bytes
    };
    assert_eq!(answered(good.as_bytes(), 0), (None, 0, 3, 0));
    assert_eq!(answered(&good.as_bytes()[..23], 0), (Some(Refusal::PartialRecord), 3, 0, 0));
    assert_eq!(answered(records(&"\n".repeat(MAX_RECORDS + 1)).as_bytes(), 0), (Some(Refusal::Records), MAX_RECORDS, 0, 0));
    assert_eq!(answered(&with(16, 17), 0), (Some(Refusal::Kind), 2, 0, 0));
    assert_eq!(answered(&with(6, 2), 0), (Some(Refusal::Length), 1, 0, 0));
    assert_eq!(answered(good.as_bytes(), 16_777_214), (Some(Refusal::Bytes), 2, 0, 0));
    assert_eq!(answered(good.as_bytes(), 16_777_217), (Some(Refusal::Bytes), 0, 0, 0));
    let deep = "[".repeat(MAX_DEPTH + 1);
    assert_eq!(answered(records(&format!("a={deep}")).as_bytes(), 0), (Some(Refusal::Depth), 66, 66, 0));
}

#[test]
fn words_that_hold_no_entry_stay() {
    let (mut events, mut errors) = ([7; 15], [7; 13]);
    assert_eq!(parse_document(&[1], 0, Options::default(), &mut events, &mut errors).refusal(), Some(Refusal::PartialRecord));
    assert_eq!((events, errors), ([7; 15], [7; 13]));
    let list = records("[[a]\n$");
    let answer = parse_document(list.as_bytes(), 0, Options::default(), &mut events, &mut errors);
    assert_eq!((answer.events().len(), answer.errors().len()), (3, 1));
    assert_eq!(events, [3, 0, 0, 2, 5, 0, 2, 3, 16, 0, 4, 5, 7, 7, 7]);
    assert_eq!(errors, [1, 2, 0, 4, 4, 4, 1, 7, 7, 7, 7, 7, 7]);
}

/// Lists that give many events or errors for their length; each bound is met by one of them.
#[test]
fn the_bounds_are_kept_and_met() {
    let (mut room, mut events_met, mut errors_met) = (Room::new(), false, false);
    for list in ["", "$", ".", "=", "a=]", "#", "##", "a=[,", "{[=}", "]\n", "a={=", "a=[}", "a={b=[", ".\n", "=\n"] {
        for (entry, times) in Entry::ALL.into_iter().flat_map(|entry| [1, 2, 100].map(|times| (entry, times))) {
            let list = records(&list.repeat(times));
            let (event_bound, error_bound) = (3 * list.count(), 2 * list.count() + 1);
            let answer = room.parse(entry, list.as_bytes(), 0);
            assert!(!matches!(answer.refusal(), Some(Refusal::Events | Refusal::Errors)), "{list:?}");
            assert!(answer.event_count() <= event_bound && answer.error_count() <= error_bound, "{list:?}");
            events_met |= list.count() > 0 && answer.event_count() == event_bound;
            errors_met |= answer.error_count() == error_bound;
        }
    }
    assert!(events_met && errors_met);
    assert_eq!((enough_event_words(10), enough_error_words(10)), (4 * 30, ERROR_SIZE * 21));
}

#[test]
fn a_room_serves_many_lists() {
    let mut room = Room::new();
    for text in ["a=1\nb=2\n$", "$", "[[a]\n$", "a=1\nb=2\n$"] {
        let list = records(text);
        let (mut events, mut errors) = (vec![0; enough_event_words(list.count())], vec![0; enough_error_words(list.count())]);
        let alone = parse_document(list.as_bytes(), 0, Options::default(), &mut events, &mut errors);
        let answer = room.parse(Entry::Document, list.as_bytes(), 0);
        assert!(answer.events().eq(alone.events()) && answer.errors().eq(alone.errors()), "{text:?}");
        assert_eq!(answer.is_quiet(), !text.starts_with("[["));
    }
}

#[test]
fn tokens_are_read_as_their_records() {
    use deckmarten::{Records, Token};
    let lists: [&[Token]; 5] = [
        &[],
        &[Token::new(TokenKind::Atom, 3), Token::new(TokenKind::Equals, 1), Token::new(TokenKind::MlBasicString, 70_000)],
        &[
            Token::new(TokenKind::LeftSquareBracket, 1),
            Token::new(TokenKind::LeftSquareBracket, 1),
            Token::new(TokenKind::Eof, 0),
        ],
        &[Token::new(TokenKind::Newline, 1), Token::new(TokenKind::Dot, 2)],
        &vec![Token::new(TokenKind::Comment, 1); MAX_RECORDS + 1],
    ];
    let mut refusals = Vec::new();
    for tokens in lists {
        let records: Records = tokens.iter().copied().collect();
        let (mut events, mut errors, mut other_events, mut other_errors) = ([7; 20], [7; 20], [7; 20], [7; 20]);
        let answer = parse_tokens(tokens, 5, Options::default(), &mut events, &mut errors);
        let other = parse_document(records.as_bytes(), 5, Options::default(), &mut other_events, &mut other_errors);
        assert_eq!(format!("{answer:?}"), format!("{other:?}"));
        refusals.push(answer.refusal());
        assert_eq!((events, errors), (other_events, other_errors));
    }
    assert_eq!(refusals, [None, None, None, Some(Refusal::Length), Some(Refusal::Records)]);
}

#[test]
fn threads_do_not_disturb_one_another() {
    let texts: Vec<String> = (0..8).map(|number| "a=[1 \"]\n".repeat(100 * number)).collect();
    let read = |text: &String| {
        let mut room = Room::new();
        let answer = room.parse(Entry::Document, records(text).as_bytes(), 0);
        (answer.events().collect::<Vec<_>>(), answer.errors().collect::<Vec<_>>())
    };
    let alone: Vec<_> = texts.iter().map(read).collect();
    let together: Vec<_> = std::thread::scope(|scope| {
        let threads: Vec<_> = texts.iter().map(|text| scope.spawn(move || read(text))).collect();
        threads.into_iter().map(|thread| thread.join().unwrap()).collect()
    });
    assert_eq!(alone, together);
    assert_eq!(alone.iter().map(|read| read.1.len()).collect::<Vec<_>>(), [0, 100, 200, 300, 400, 500, 600, 700]);
}

#[test]
fn numbers_go_both_ways() {
    macro_rules! both_ways {
        ($($name:ident [$($numbers:expr),+],)+) => {$(
            assert_eq!($name::ALL.len(), 0 $(+ $numbers.count())+);
            for number in 0..140 {
                let case = $name::from_number(number);
                assert_eq!(case.is_some(), [$($numbers),+].iter().any(|numbers| numbers.contains(&number)));
                assert_eq!(case.map_or(number, $name::number), number);
            }
        )+};
    }
    both_ways! {
        TokenKind [1..=16], EventKind [1..=17], Encoding [1..=4], Message [1..=29, 101..=106], Expected [1..=14], Refusal [1..=15],
    }
    assert!(Message::ALL.iter().all(|message| message.is_silent() == (message.number() > 100)));
    assert_eq!(Refusal::Depth.to_string(), "a 65th array or inline table would be open");
    assert_eq!(format!("{:>12}|{}", TokenKind::Dot, EventKind::Scalar), "         `.`|value");
}
