//! Lines, columns and carets.

use programs::names::{of_event, shown};
use programs::places::places;
use programs::shown::excerpt;

use deckmarten::EventKind;

/// The line and column of a byte.
fn at(text: &str, byte: usize) -> (usize, usize) {
    let place = places(text.as_bytes(), &[byte])[0];
    (place.line, place.column)
}

/// The two lines that show a byte.
fn lines(text: &str, byte: usize) -> [String; 2] {
    let shown = excerpt(text, places(text.as_bytes(), &[byte])[0]);
    let lines: Vec<&str> = shown.lines().collect();
    assert!(shown.ends_with('\n') && lines.len() == 2);
    [lines[0].to_string(), lines[1].to_string()]
}

#[test]
fn all_line_breaks_count() {
    assert_eq!(at("a\nb", 0), (1, 1));
    assert_eq!(at("a\nb", 1), (1, 2));
    assert_eq!(at("a\nb", 2), (2, 1));
    assert_eq!(at("a\nb", 3), (2, 2));
    assert_eq!(at("a\n", 2), (2, 1));
    assert_eq!(at("a = '''\n\n'''\nb", 13), (4, 1));
    assert_eq!(at("a\r\nb", 1), (1, 2));
    assert_eq!(at("a\r\nb", 3), (2, 1));
    assert_eq!(at("a\rb\r\r\nc", 2), (2, 1));
    assert_eq!(at("a\rb\r\r\nc", 4), (3, 1));
    assert_eq!(at("a\rb\r\r\nc", 6), (4, 1));
    assert_eq!(at("", 0), (1, 1));
}

#[test]
fn a_column_is_a_character() {
    assert_eq!(at("größe = 1", 7), (1, 6));
    assert_eq!(at("日本 = 1", 6), (1, 3));
    assert_eq!(at("🦫=", 4), (1, 2));
    assert_eq!(at("\t\tb", 2), (1, 3));
    // a byte order mark is no part of the line
    assert_eq!(at("\u{feff}ab\nc", 3), (1, 1));
    assert_eq!(at("\u{feff}ab\nc", 4), (1, 2));
    assert_eq!(at("\u{feff}ab\nc", 6), (2, 1));
}

#[test]
fn places_may_be_asked_in_any_order() {
    let text = "a\nbb\nccc\n".as_bytes();
    let asked = [8, 0, 3, 3, 9, 500];
    let found: Vec<(usize, usize)> = places(text, &asked).iter().map(|place| (place.line, place.column)).collect();
    assert_eq!(found, [(3, 4), (1, 1), (2, 2), (2, 2), (4, 1), (4, 1)]);
}

#[test]
fn the_caret_is_below_its_character() {
    assert_eq!(lines("x\n[jobs.main\n", 12), ["    2 | [jobs.main", "      |           ^"]);
    assert_eq!(lines("größe = [\n", 10), ["    1 | größe = [", "      |         ^"]);
    assert_eq!(lines("\ta\tb", 3), ["    1 | \ta\tb", "      | \t \t^"]);
    // a character of East Asia takes two places, one that joins another none
    assert_eq!(lines("日本 = [", 9), ["    1 | 日本 = [", "      |        ^"]);
    assert_eq!(lines("e\u{301} = [", 6), ["    1 | e\u{301} = [", "      |     ^"]);
    assert_eq!(lines("", 0), ["    1 | ", "      | ^"]);
    assert_eq!(lines("\u{feff}=", 3), ["    1 | =", "      | ^"]);
}

#[test]
fn long_lines_are_cut_around_the_place() {
    let text = format!("{}X{}", "a".repeat(500), "b".repeat(500));
    let shown = [format!("    1 | …{}X{}…", "a".repeat(60), "b".repeat(39)), format!("      | {}^", " ".repeat(61))];
    assert_eq!(lines(&text, 500), shown);
    assert_eq!(lines(&text, 0), [format!("    1 | {}…", "a".repeat(100)), "      | ^".to_string()]);
    let end = [format!("    1 | …{}", "b".repeat(60)), format!("      | {}^", " ".repeat(61))];
    assert_eq!(lines(&text, 1001), end);
    let whole = "é".repeat(100);
    assert_eq!(lines(&whole, 100)[0], format!("    1 | {whole}"));
}

#[test]
fn no_control_reaches_the_terminal() {
    assert_eq!(lines("a\x1b[31m\x7f\u{85}\u{202e}b", 0)[0], "    1 | a␛[31m␡\u{fffd}\u{fffd}b");
    assert_eq!(lines("'a\r\n", 3)[0], "    1 | 'a␍");
    assert_eq!(shown("a\nb\t\x1b".as_ref()), "a␊b␉␛");
    assert_eq!(shown("-".as_ref()), "<stdin>");
}

#[test]
fn many_places_on_one_long_line_take_no_longer() {
    let text = "a=[,".repeat(250_000);
    let bytes: Vec<usize> = (0..text.len()).step_by(20).collect();
    let shown: usize = places(text.as_bytes(), &bytes).into_iter().map(|place| excerpt(&text, place).len()).sum();
    assert!(shown > 100 * bytes.len());
}

#[test]
fn events_have_the_names_of_the_page() {
    assert_eq!(of_event(EventKind::StdTableOpen), "std_table_open");
    assert_eq!(of_event(EventKind::KeyValSep), "key_val_sep");
    assert_eq!(of_event(EventKind::Error), "error");
}
