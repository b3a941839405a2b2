//! The lines of errors, where they may surprise.

use deckmarten::limits::ERROR_SIZE;
use deckmarten::{parse_key, parse_value, Options, Records, Room, Token, TokenKind};

/// Message, unexpected place and line of each error of a text.
fn errors(text: &str) -> Vec<(u32, String, u32)> {
    let mut room = Room::new();
    let answer = room.parse_text(text.as_bytes());
    assert_eq!(answer.refusal(), None, "{text:?}");
    answer.errors().map(|error| (error.message.number(), error.unexpected.to_string(), error.line)).collect()
}

fn assert_errors(text: &str, wanted: &[(u32, &str, u32)]) {
    let wanted: Vec<_> = wanted.iter().map(|(message, place, line)| (*message, place.to_string(), *line)).collect();
    assert_eq!(errors(text), wanted, "{text:?}");
}

#[test]
fn lines_fall_where_the_place_is_looked_for_backward() {
    assert_errors("x=[[\n", &[(7, "5..5", 2), (7, "4..4", 1)]);
    assert_errors("=[{\n", &[(13, "3..4", 1), (14, "4..4", 2), (7, "3..3", 1)]);
    assert_errors("y=[1,\n2]\nx={a=}", &[(19, "4..5", 1)]);
    assert_errors(",\n={a}", &[(26, "0..0", 1), (19, "0..1", 1)]);
}

#[test]
fn the_context_may_be_on_a_later_line() {
    let mut room = Room::new();
    let answer = room.parse_text(b",\n={a}");
    let error = answer.errors().last().unwrap();
    assert_eq!((error.line, error.context.start), (1, 3));
}

#[test]
fn places_at_the_end_of_a_line() {
    // the comment took the Eof, so the place is behind the 1
    assert_errors("x=[1 #c", &[(7, "4..4", 1)]);
    // behind the last newline: a line with nothing on it
    assert_errors("x=[1\n", &[(7, "5..5", 2)]);
    // the newline itself is the unexpected span
    assert_errors("x={\n}", &[(13, "3..4", 1)]);
}

#[test]
fn every_line_end_counts_once_and_none_inside_a_string() {
    assert_errors("a\r\nb\rc\nd", &[(5, "1..1", 1), (5, "4..4", 2), (5, "6..6", 3), (5, "8..8", 4)]);
    // the place lies between CR and LF, for the string took the CR
    assert_errors("'\r\n=", &[(5, "2..2", 1)]);
    assert_errors("\"\"\"\n\n\"\"\"\na", &[(5, "8..8", 1), (5, "10..10", 2)]);
}

#[test]
fn nothing_is_on_line_1_whatever_the_base() {
    let mut errors = [7; ERROR_SIZE];
    let answer = parse_key(&[], 3, Options::default(), &mut [], &mut errors);
    assert_eq!((answer.refusal(), answer.error_count()), (None, 1));
    assert_eq!(errors, [4, 4, 0, 0, 0, 0, 1]);
}

#[test]
fn the_shortest_list_whose_lines_fall() {
    use TokenKind::{LeftCurlyBracket, Newline};
    let list: Records = [LeftCurlyBracket, Newline, Newline].map(|kind| Token::new(kind, 1)).into_iter().collect();
    let (mut events, mut errors) = ([0; 40], [0; 10 * ERROR_SIZE]);
    let answer = parse_value(list.as_bytes(), 0, Options::default(), &mut events, &mut errors);
    let lines: Vec<_> = answer.errors().map(|error| (error.message.number(), error.line)).collect();
    assert_eq!(lines, [(13, 1), (13, 2), (14, 1)]);
}

/// Words that hold no whole error keep what they held, also where the line would not fit.
#[test]
fn an_error_that_does_not_fit_is_not_begun() {
    for words in 0..3 * ERROR_SIZE {
        let mut errors = vec![7; words];
        let (mut records, mut events) = ([0; 60], [0; 80]);
        let answer = deckmarten::parse_text(b"x=[[\n", Options::default(), &mut records, &mut events, &mut errors);
        assert_eq!(answer.error_count(), 2);
        let held = (words / ERROR_SIZE).min(2);
        assert_eq!(answer.errors().map(|error| error.line).collect::<Vec<_>>(), [2, 1][..held]);
        assert!(errors[ERROR_SIZE * held..].iter().all(|word| *word == 7), "{words}");
    }
}
