//! The fourteen texts of document 01: the crate reads the files in examples/, and the texts themselves, as oracle/texts/texts.txt has their
//! listings.

use std::fmt::Write;
use std::fs;

use deckmarten::{lex, text_fits, Answer, Entry, Room};

/// The name of a case as the listing has it: `StdTableOpen` is `std_table_open`.
fn listed(name: &str) -> String {
    let mut listed = String::new();
    for letter in name.chars() {
        if letter.is_uppercase() && !listed.is_empty() {
            listed.push('_');
        }
        listed.extend(letter.to_lowercase());
    }
    listed
}

fn listing(answer: &Answer) -> String {
    assert_eq!(answer.refusal(), None);
    let mut lines = format!("events {} errors {}\n", answer.event_count(), answer.error_count());
    for event in answer.events() {
        let encoding = event.encoding.map_or(0, |encoding| encoding.number());
        writeln!(lines, "{} {} {} {encoding}", listed(&format!("{:?}", event.kind)), event.span.start, event.span.end).unwrap();
    }
    for error in answer.errors() {
        let (context, unexpected) = (error.context, error.unexpected);
        write!(lines, "error {} {}", error.message.number(), error.expected.number()).unwrap();
        writeln!(lines, " {} {} {} {} {}", context.start, context.end, unexpected.start, unexpected.end, error.line).unwrap();
    }
    lines
}

/// A text of document 01.
struct Text {
    number: usize,
    entry: Entry,
    /// The text itself; none if its list does not end in an Eof, as a text's does.
    text: Option<String>,
    listing: String,
}

fn texts() -> Vec<Text> {
    let file = fs::read_to_string("../../oracle/texts/texts.txt").unwrap();
    let written: Vec<&str> = file.lines().filter(|line| !line.starts_with('#')).collect();
    let blocks = written.split(|line| line.is_empty()).filter(|block| !block.is_empty());
    blocks.map(text).collect()
}

/// A text from its lines: `text NUMBER ENTRY EOF`, the notation, the listing.
fn text(lines: &[&str]) -> Text {
    let head: Vec<&str> = lines[0].split(' ').collect();
    let entry = match head[2] {
        "document" => Entry::Document,
        "key" => Entry::Key,
        other => panic!("no text is read as {other}"),
    };
    let notation = lines[1].strip_prefix("notation ").unwrap().replace("\\n", "\n");
    let listing = lines[2..].iter().map(|line| format!("{line}\n")).collect();
    Text { number: head[1].parse().unwrap(), entry, text: (head[3] == "eof").then_some(notation), listing }
}

fn records(number: usize) -> Vec<u8> {
    fs::read(format!("../../examples/text-{number:02}.bin")).unwrap()
}

#[test]
fn the_fourteen_texts_are_read_as_document_01_has_them() {
    let mut room = Room::new();
    let texts = texts();
    assert_eq!(texts.len(), 14);
    for text in texts {
        assert_eq!(listing(&room.parse(text.entry, &records(text.number), 0)), text.listing, "text {}", text.number);
    }
}

#[test]
fn twelve_of_them_are_texts_and_have_the_same_records() {
    let mut room = Room::new();
    let mut read = Vec::new();
    for Text { number, text, listing: wanted, .. } in texts() {
        let Some(text) = text else { continue };
        assert_eq!(lex(text.as_bytes()).unwrap().records.as_bytes(), records(number), "text {number}");
        assert_eq!(listing(&room.parse_text(text.as_bytes())), wanted, "text {number}");
        read.push(number);
    }
    assert_eq!(read, [1, 2, 3, 4, 5, 6, 7, 8, 9, 12, 13, 14]);
}

#[test]
fn five_of_them_are_quiet() {
    let mut room = Room::new();
    let mut quiet = |text: &Text| room.parse(text.entry, &records(text.number), 0).is_quiet();
    let quiet: Vec<usize> = texts().iter().filter(|text| quiet(text)).map(|text| text.number).collect();
    assert_eq!(quiet, [1, 2, 3, 8, 12]);
    let fits = |text: &Text| text.text.as_ref().is_some_and(|text| text_fits(text.as_bytes()).is_yes());
    assert_eq!(texts().iter().filter(|text| fits(text)).map(|text| text.number).collect::<Vec<_>>(), quiet);
}

#[test]
fn the_two_texts_of_the_readme_have_their_records() {
    for (name, fits) in [("job", true), ("ledger", false)] {
        let text = fs::read(format!("../../examples/{name}.toml")).unwrap();
        let records = fs::read(format!("../../examples/{name}.bin")).unwrap();
        assert_eq!(lex(&text).unwrap().records.as_bytes(), records, "{name}");
        assert_eq!(text_fits(&text).is_yes(), fits, "{name}");
        assert_eq!(listing(&Room::new().parse_text(&text)), fs::read_to_string(format!("../../examples/{name}.txt")).unwrap());
    }
}
