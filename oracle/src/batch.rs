//! Batch mode: one case for each line in, one answer for each line out.
//!
//! In: `ENTRY BASE EVENTWORDS ERRORWORDS` and the list as `kind:length` or, for
//! bytes as they are, `x:HEX`; before the entry perhaps `mode:NUMBER`, else it is crate
//! mode. Out: `refusal place events errors | words of the
//! written events | words of the written errors`.

use std::fmt::Write as _;

use crate::judged_compared;
use crate::modes;
use crate::numbers::ERROR_WORDS;
use crate::records;
use crate::Answer;
use crate::Entry;

/// A case as it stands in a line.
#[derive(Clone, PartialEq, Eq, Debug)]
pub struct Case {
    pub mode: u32,
    pub entry: Entry,
    pub base: u32,
    pub event_words: usize,
    pub error_words: usize,
    pub bytes: Vec<u8>,
}

impl Case {
    /// The list at an entry in crate mode, its room still to be chosen.
    pub fn at(entry: Entry, base: u32, bytes: Vec<u8>) -> Self {
        Self {
            mode: modes::CRATE,
            entry,
            base,
            event_words: 0,
            error_words: 0,
            bytes,
        }
    }
}

/// The case in a line, or what is wrong with the line.
pub fn parse(line: &str) -> Result<Case, String> {
    let (mode, line) = with_mode(line)?;
    let mut words = line.split_ascii_whitespace();
    let mut next = |what: &str| words.next().ok_or(format!("{what} is missing"));
    let name = next("entry")?;
    let entry = Entry::from_name(name).ok_or(format!("no entry {name:?}"))?;
    let base = number(next("base")?)?;
    let event_words = number(next("room for events")?)?;
    let error_words = number(next("room for errors")?)?;
    Ok(Case {
        mode,
        entry,
        base,
        event_words,
        error_words,
        bytes: bytes(words)?,
    })
}

/// The mode that a line begins with, crate mode if it does with none, and the rest.
pub fn with_mode(line: &str) -> Result<(u32, &str), String> {
    match line.strip_prefix("mode:") {
        None => Ok((modes::CRATE, line)),
        Some(rest) => {
            let (mode, rest) = rest.split_once(' ').ok_or("a mode and no case")?;
            Ok((number(mode)?, rest))
        }
    }
}

/// The bytes of words `kind:length` or `x:HEX`.
pub fn bytes<'w>(words: impl IntoIterator<Item = &'w str>) -> Result<Vec<u8>, String> {
    let mut bytes = Vec::new();
    for word in words {
        item(word, &mut bytes)?;
    }
    Ok(bytes)
}

/// Appends the bytes of `kind:length` or `x:HEX`.
fn item(word: &str, bytes: &mut Vec<u8>) -> Result<(), String> {
    let (kind, rest) = word
        .split_once(':')
        .ok_or(format!("{word:?} has no colon"))?;
    if kind != "x" {
        records::push(bytes, number(kind)?, number(rest)?);
        return Ok(());
    }
    if !rest.is_ascii() || rest.len() % 2 != 0 {
        return Err(format!("{word:?} is no list of bytes"));
    }
    for place in (0..rest.len()).step_by(2) {
        let byte = u8::from_str_radix(&rest[place..place + 2], 16);
        bytes.push(byte.map_err(|_| format!("{word:?} is no list of bytes"))?);
    }
    Ok(())
}

/// A number that fits its place.
pub fn number<N: std::str::FromStr>(word: &str) -> Result<N, String> {
    word.parse()
        .map_err(|_| format!("{word:?} is no number that fits"))
}

/// The line out for a line in, or a text on what is wrong: with the line, or
/// between the counted copy and the unchanged original.
pub fn answer_line(line: &str) -> Result<String, String> {
    let case = parse(line)?;
    let mut events = vec![0; case.event_words];
    let mut errors = vec![0; case.error_words];
    let judged = judged_compared(case.entry, case.base, &case.bytes)?;
    let judged = judged.in_mode(case.mode, case.base, &case.bytes);
    let answer = judged.answer(&mut events, &mut errors);
    Ok(render(&answer, &events, &errors))
}

/// An answer and the written entries as one line.
pub fn render(answer: &Answer, events: &[u32], errors: &[u32]) -> String {
    let Answer { refusal, place, .. } = answer;
    let mut text = format!("{refusal} {place} {} {} |", answer.events, answer.errors);
    for word in events.chunks_exact(4).take(answer.events).flatten() {
        let _ = write!(text, " {word}");
    }
    text.push_str(" |");
    for word in errors
        .chunks_exact(ERROR_WORDS)
        .take(answer.errors)
        .flatten()
    {
        let _ = write!(text, " {word}");
    }
    text
}

#[cfg(test)]
mod tests {
    use super::*;

    #[test]
    fn a_line_in_and_out() {
        let out = answer_line("document 0 64 64 15:1 2:1 15:1 16:0").unwrap();
        assert_eq!(out, "0 0 3 0 | 5 0 0 1 7 0 1 2 8 0 2 3 |");
        let out = answer_line("key 7 0 7").unwrap();
        assert_eq!(out, "0 0 0 1 | | 4 4 0 0 0 0 1");
        let out = answer_line("key 7 0 6 x:").unwrap();
        assert_eq!(out, "8 0 0 1 | |");
        let out = answer_line("value 0 64 64 x:01000000 x:0f0000").unwrap();
        assert_eq!(out, "1 1 0 0 | |");
        let out = answer_line("mode:1 value 0 0 64 6:1 15:1 7:1").unwrap();
        assert_eq!(out, "7 0 3 1 | | 19 1 0 1 2 2 1");
        let out = answer_line("mode:2 value 0 64 64 x:01000000 x:0f0000").unwrap();
        assert_eq!(out, "15 0 0 0 | |");
    }

    #[test]
    fn wrong_lines_are_errors() {
        for line in [
            "",
            "document",
            "table 0 0 0",
            "key 0 0 0 15",
            "key 0 0 0 x:0",
            "key -1 0 0",
            "mode:0",
            "mode:-1 key 0 0 0",
            "mode: key 0 0 0",
        ] {
            assert!(answer_line(line).is_err(), "{line:?}");
        }
    }
}
