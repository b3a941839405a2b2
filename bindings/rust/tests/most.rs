//! The lists that give the most events and the most errors, entry by entry (docs/landings/T-07.md), through the archive: with room for just so
//! many there is no refusal, and with room for one less there is.

mod common;

use common::records;
use deckmarten::limits::{
    enough_error_words, enough_event_words, enough_records, enough_text_error_words, enough_text_event_words, ERROR_SIZE,
    EVENT_SIZE, MAX_RECORDS, RECORD_SIZE,
};
use deckmarten::{parse_text, Entry, Options, Refusal};

/// `[` and then `}`.
fn bracketed(n: usize) -> String {
    "[".to_string() + &"}".repeat(n - 1)
}

/// A comment and content behind it, while more than three tokens are wanted; then a newline, and content.
fn commented(n: usize) -> String {
    let pairs = (n / 2).saturating_sub(1);
    let rest = n - 2 * pairs;
    "#a".repeat(pairs) + &"\n".repeat(rest.min(1)) + &"a".repeat(rest.saturating_sub(1))
}

fn most_events(entry: Entry, n: usize) -> (String, usize) {
    match entry {
        Entry::Document if n < 4 => (".".repeat(n), [0, 3, 5, 7][n]),
        Entry::Document => ("=".to_string() + &bracketed(n - 1), 3 * n - 3),
        Entry::Key => (".".repeat(n), 2 * n),
        Entry::SimpleKey => (".".repeat(n), n),
        _ if n < 3 => (["", "[", "{."][n].to_string(), [0, 2, 5][n]),
        _ => (bracketed(n), 3 * n - 2),
    }
}

fn most_errors(entry: Entry, n: usize) -> (String, usize) {
    match entry {
        Entry::Document if n < 4 => ("=".repeat(n), n),
        Entry::Document => ("=".to_string() + &bracketed(n - 1), 2 * n - 4),
        Entry::Key => (".".repeat(n), 1),
        Entry::SimpleKey => (commented(n), n / 2 + 1),
        _ if n < 3 => ("=".repeat(n), n + 1),
        _ => (bracketed(n), 2 * n - 2),
    }
}

fn sizes() -> impl Iterator<Item = usize> {
    (0..=64).chain([MAX_RECORDS])
}

#[test]
fn events() {
    for (entry, n) in Entry::ALL.into_iter().flat_map(|entry| sizes().map(move |n| (entry, n))) {
        let (text, most) = most_events(entry, n);
        let list = records(&text);
        let mut errors = vec![0; enough_error_words(n)];
        let mut events = vec![0; EVENT_SIZE * most];
        assert!(most <= 3 * n && events.len() <= enough_event_words(n));
        let answer = entry.parse(list.as_bytes(), 0, Options::default(), &mut events, &mut errors);
        assert_eq!((list.count(), answer.event_count(), answer.refusal()), (n, most, None), "{entry:?}, {n} tokens");
        if most > 0 {
            events.truncate(EVENT_SIZE * most - 1);
            assert_eq!(
                entry.parse(list.as_bytes(), 0, Options::default(), &mut events, &mut errors).refusal(),
                Some(Refusal::Events)
            );
        }
    }
}

#[test]
fn errors() {
    for (entry, n) in Entry::ALL.into_iter().flat_map(|entry| sizes().map(move |n| (entry, n))) {
        let (text, most) = most_errors(entry, n);
        let list = records(&text);
        let mut events = vec![0; enough_event_words(n)];
        let mut errors = vec![0; ERROR_SIZE * most];
        assert!(most <= 2 * n + 1 && errors.len() <= enough_error_words(n));
        let answer = entry.parse(list.as_bytes(), 0, Options::default(), &mut events, &mut errors);
        assert_eq!((list.count(), answer.error_count(), answer.refusal()), (n, most, None), "{entry:?}, {n} tokens");
        if most > 0 {
            errors.truncate(ERROR_SIZE * most - 1);
            assert_eq!(
                entry.parse(list.as_bytes(), 0, Options::default(), &mut events, &mut errors).refusal(),
                Some(Refusal::Errors)
            );
        }
    }
}

/// The sizes by the bytes of a text are enough for the texts of these lists. A text of 65,535 bytes has as many records as a list may have.
#[test]
fn texts() {
    for n in (0..=64).chain([MAX_RECORDS - 1]) {
        for text in [most_events(Entry::Document, n).0, most_errors(Entry::Document, n).0] {
            let mut list = vec![0; RECORD_SIZE * enough_records(n)];
            let mut events = vec![0; enough_text_event_words(n)];
            let mut errors = vec![0; enough_text_error_words(n)];
            let answer = parse_text(text.as_bytes(), Options::default(), &mut list, &mut events, &mut errors);
            assert_eq!((answer.refusal(), text.len()), (None, n));
        }
    }
}
