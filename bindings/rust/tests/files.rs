//! The files of examples/toml: what people write fits, and its events are the whole text; of the broken ones those fit whose name says so.

use std::fs;
use std::path::PathBuf;

use deckmarten::{lex, text_fits, Refusal, Room, Verdict};

/// The TOML files of a folder, by name.
fn files(folder: &str) -> Vec<(String, Vec<u8>)> {
    let entries = fs::read_dir(folder).unwrap().map(|entry| entry.unwrap().path());
    let mut paths: Vec<PathBuf> = entries.filter(|path| path.extension().is_some_and(|ending| ending == "toml")).collect();
    paths.sort();
    paths.into_iter().map(|path| (path.file_name().unwrap().to_string_lossy().into_owned(), fs::read(path).unwrap())).collect()
}

#[test]
fn what_people_write_fits() {
    let (mut room, files) = (Room::new(), files("../../examples/toml"));
    assert!(files.len() >= 30);
    for (name, text) in files {
        assert_eq!(text_fits(&text), Verdict::Fits, "{name}");
        let answer = room.parse_text(&text);
        assert!(answer.is_quiet(), "{name}");
        let base = if text.starts_with("\u{feff}".as_bytes()) { 3 } else { 0 };
        assert_eq!((answer.base(), answer.record_count()), (base, lex(&text).unwrap().records.count()), "{name}");
        let pieces: Vec<u8> = answer.events().flat_map(|event| text[event.span.range()].to_vec()).collect();
        assert!(pieces == text[base as usize..], "{name}");
    }
}

#[test]
fn what_is_broken_does_not_fit_unless_it_is_within_a_token() {
    let files = files("../../examples/toml/broken");
    assert!(files.len() >= 15);
    for (name, text) in files {
        let verdict = text_fits(&text);
        match std::str::from_utf8(&text) {
            Ok(_) => assert_eq!(verdict, if name.starts_with("quiet-") { Verdict::Fits } else { Verdict::DoesNotFit }, "{name}"),
            Err(error) => {
                let Verdict::Refused(refused) = verdict else { panic!("{name} was judged") };
                assert_eq!((refused.refusal, refused.place), (Refusal::NotUtf8, error.valid_up_to()), "{name}");
            }
        }
    }
}
