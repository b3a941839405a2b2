//! A line of the text with a caret under a place.

use crate::places::Place;

/// The most characters of a line that are shown, and how many of them before the place where the line is longer.
const SHOWN: usize = 100;
const BEFORE: usize = 60;
/// What stands where a line was cut.
const CUT: char = '…';

/// The line on which the place is, with its number, and below it a caret under the character that starts there. No more of the text is looked at than is
/// shown, so that many places on one long line take no longer than on many lines.
pub fn excerpt(text: &str, place: Place) -> String {
    let before = text.get(place.start..place.byte).unwrap_or_default();
    let behind = text.get(place.byte..).unwrap_or_default();
    let shown = last(before, BEFORE);
    let (mut line, mut pad) = (String::new(), String::new());
    if shown.len() < before.len() {
        line.push(CUT);
        pad.push(' ');
    }
    for character in shown.chars() {
        line.push(visible(character));
        match character {
            '\t' => pad.push('\t'),
            other => (0..width(other)).for_each(|_| pad.push(' ')),
        }
    }
    let mut rest = behind.chars().take_while(|character| !matches!(character, '\n' | '\r'));
    line.extend(rest.by_ref().take(SHOWN - shown.chars().count()).map(visible));
    if rest.next().is_some() {
        line.push(CUT);
    }
    format!("{:>5} | {line}\n      | {pad}^\n", place.line)
}

/// The last characters of a text, so many at most.
fn last(text: &str, most: usize) -> &str {
    let from = text.char_indices().rev().take(most).last();
    from.map_or("", |(place, _)| &text[place..])
}

/// The character as it is shown: one that a terminal would obey, or that is not seen, is shown as another.
pub fn visible(character: char) -> char {
    match character {
        '\t' => '\t',
        '\0'..='\x1f' => char::from_u32(0x2400 + character as u32).unwrap_or('\u{fffd}'), // pictures of the controls
        '\x7f' => '\u{2421}',
        '\u{80}'..='\u{9f}'
        | '\u{61c}'
        | '\u{200b}'..='\u{200f}'
        | '\u{2028}'..='\u{202e}'
        | '\u{2060}'..='\u{206f}'
        | '\u{feff}' => '\u{fffd}',
        other => other,
    }
}

/// How many places of a terminal the character takes: none if it joins the one before, two for most of East Asia and for pictures.
fn width(character: char) -> usize {
    match visible(character) as u32 {
        0x300..=0x36f
        | 0x483..=0x489
        | 0x591..=0x5bd
        | 0x64b..=0x65f
        | 0x1ab0..=0x1aff
        | 0x1dc0..=0x1dff
        | 0x20d0..=0x20f0
        | 0xfe00..=0xfe0f => 0,
        0x1100..=0x115f
        | 0x2e80..=0x303e
        | 0x3041..=0xa4cf
        | 0xa960..=0xa97c
        | 0xac00..=0xd7a3
        | 0xf900..=0xfaff
        | 0xfe30..=0xfe6f => 2,
        0xff00..=0xff60 | 0xffe0..=0xffe6 | 0x1f300..=0x1f64f | 0x1f680..=0x1f6ff | 0x1f900..=0x1faff | 0x20000..=0x3fffd => 2,
        _ => 1,
    }
}
