//! Lists of records as a collection, what is stored read from both ends, and the version.

mod common;

use common::records;
use deckmarten::{Entry, Records, Room, Token, TokenKind};

#[test]
fn records_keep_their_room() {
    let mut list = Records::with_capacity(3);
    let start = list.as_bytes().as_ptr();
    for kinds in [[TokenKind::Atom, TokenKind::Equals, TokenKind::Atom], [TokenKind::Dot, TokenKind::Comma, TokenKind::Newline]] {
        kinds.into_iter().for_each(|kind| list.push(Token::new(kind, 1)));
        assert_eq!((list.count(), list.as_bytes().as_ptr()), (3, start));
        assert_eq!(list.iter().map(|token| token.kind).collect::<Vec<_>>(), kinds);
        list.clear();
        assert_eq!((list.count(), list.as_bytes().len(), list.iter().len()), (0, 0, 0));
    }
    assert_eq!(list, Records::new());
}

#[test]
fn tokens_come_from_both_ends() {
    let list = records("a=[\n]$");
    let mut tokens = list.iter();
    assert_eq!(
        (tokens.len(), tokens.next().unwrap().kind, tokens.next_back().unwrap().kind),
        (6, TokenKind::Atom, TokenKind::Eof)
    );
    assert_eq!((tokens.len(), tokens.nth_back(1).unwrap().kind), (4, TokenKind::Newline));
    assert_eq!(tokens.map(|token| token.kind).collect::<Vec<_>>(), [TokenKind::Equals, TokenKind::LeftSquareBracket]);
    let backward: Vec<Token> = list.iter().rev().collect();
    assert!(list.iter().eq(backward.into_iter().rev()));
}

#[test]
fn what_is_stored_comes_from_both_ends() {
    let mut room = Room::new();
    let list = records("[a\nb\nc=[1 '\n]\n]\n$");
    let answer = room.parse(Entry::Document, list.as_bytes(), 0);
    let (events, errors): (Vec<_>, Vec<_>) = (answer.events().collect(), answer.errors().collect());
    assert!(events.len() > 8 && errors.len() == 4);
    assert!(answer.events().rev().eq(events.iter().rev().copied()) && answer.errors().rev().eq(errors.iter().rev().copied()));
    for n in 0..=events.len() {
        let (mut forward, mut backward) = (answer.events(), answer.events());
        assert_eq!((forward.len(), forward.nth(n)), (events.len(), events.get(n).copied()));
        assert_eq!((backward.len(), backward.nth_back(n)), (events.len(), events.iter().nth_back(n).copied()));
        assert_eq!((forward.len(), backward.len()), (events.len().saturating_sub(n + 1), events.len().saturating_sub(n + 1)));
    }
    // towards one another they meet once
    let mut both = answer.events();
    let mut count = 0;
    while both.next().is_some() {
        count += 1 + usize::from(both.next_back().is_some());
    }
    assert_eq!((count, both.next_back()), (events.len(), None));
}

#[test]
fn the_archive_is_of_this_version() {
    let part = |text: &str| text.parse::<u32>().unwrap();
    let version = 1_000_000 * part(env!("CARGO_PKG_VERSION_MAJOR")) + 1_000 * part(env!("CARGO_PKG_VERSION_MINOR"));
    assert_eq!(deckmarten::VERSION, version + part(env!("CARGO_PKG_VERSION_PATCH")));
    assert_eq!(deckmarten::version(), deckmarten::VERSION);
}
