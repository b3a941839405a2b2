//! The index of headers: what it has, in which room, how it is read back, and how tables are found by it.

mod common;

use common::records;
use deckmarten::limits::{ENTRY_SIZE, MAX_RECORDS};
use deckmarten::{headers, Entry, EventKind, Header, Refusal, Room};

const JOBS: &str =
    "# jobs\nname = 'store-7'\n[agent]\nlog.level = 1\n[jobs.main]\n[[ jobs . \"main\" . copies ]] # one\nhost = {a=[1]}\n\
                    [[jobs.main.copies]]\n[jobs.\"main\"]\n[jobs.mail]\nx=1\n";

/// Key parts, mark and events of each.
fn listed(read: impl Iterator<Item = Header>) -> Vec<(usize, bool, std::ops::Range<usize>)> {
    read.map(|header| (header.key_parts(), header.is_array_table(), header.events())).collect()
}

#[test]
fn every_header_is_there_once_in_order() {
    let mut room = Room::new();
    let answer = room.parse_text(JOBS.as_bytes());
    let index = answer.index().unwrap();
    assert_eq!(
        listed(index.headers()),
        [(1, false, 8..20), (2, false, 20..26), (3, true, 26..54), (3, true, 54..62), (2, false, 62..68), (2, false, 68..78)]
    );
    assert_eq!(index.as_bytes().len(), 6 * ENTRY_SIZE);
    assert_eq!(&index.as_bytes()[..ENTRY_SIZE], [17, 0, 0, 0, 1, 0, 8, 0, 1, 0, 0, 0, 0, 12, 0, 0, 0]);
    // a table's events are its text; what stands before the first header is in none
    let texts: Vec<String> =
        index.headers().map(|header| answer.events_of(&header).map(|event| &JOBS[event.span.range()]).collect()).collect();
    assert_eq!(texts.concat(), JOBS[JOBS.find("[agent]").unwrap()..]);
    assert!(texts.iter().all(|text| text.starts_with('[')));
    assert_eq!(texts[4], "[jobs.\"main\"]\n");
    for header in index.headers() {
        assert_eq!(answer.events().nth(header.events().start), answer.events_of(&header).next());
    }
}

#[test]
fn tables_are_found_as_they_are_spelled() {
    let mut room = Room::new();
    let text = JOBS.as_bytes();
    let answer = room.parse_text(text);
    let index = answer.index().unwrap();
    let starts = |path: &str| index.find_all(text, path).map(|header| header.events().start).collect::<Vec<_>>();
    assert_eq!(starts("agent"), [8]);
    assert_eq!(starts("jobs.main"), [20]);
    assert_eq!(starts("jobs.\"main\""), [62]);
    assert_eq!(starts("jobs.\"main\".copies"), [26]);
    assert_eq!(starts("jobs.main.copies"), [54]);
    assert_eq!(starts("jobs.mail"), [68]);
    for path in
        ["", ".", "jobs", "jobs.", "jobs.mai", "jobs.main.", ".jobs.main", "jobs.main.copies.x", "jobs .main", "host", "x"]
    {
        assert_eq!(index.find(text, path), None, "{path:?}");
    }
    // another text, or too little of it, has no such table and is no mistake
    assert_eq!(index.find(b"", "agent"), None);
    assert_eq!(index.find(&text[..40], "jobs.mail"), None);
}

#[test]
fn a_quoted_dot_is_no_dot_between_parts() {
    let text = b"[\"a.b\"]\n[a.b]\n['a'.b]\n";
    let mut room = Room::new();
    let answer = room.parse_text(text);
    let index = answer.index().unwrap();
    let found = |path: &str| index.find(text, path).map(|header| header.key_parts());
    assert_eq!(
        (found("\"a.b\""), found("a.b"), found("'a'.b"), found("\"a"), found("a")),
        (Some(1), Some(2), Some(2), None, None)
    );
}

#[test]
fn in_every_room() {
    let mut room = Room::new();
    let answer = room.parse_text(b"[a]\n[[b.c]]\nd=1\n");
    let whole = answer.index().unwrap().into_bytes();
    assert_eq!(whole.len(), 2 * ENTRY_SIZE);
    for bytes in 0..whole.len() + ENTRY_SIZE {
        let mut buffer = vec![7; bytes];
        let indexed = answer.index_into(&mut buffer);
        assert_eq!((indexed.headers, indexed.bytes), (2, whole.len()));
        if bytes < whole.len() {
            assert_eq!(indexed.refusal, Some(Refusal::Index));
            assert!(buffer.iter().all(|byte| *byte == 7));
        } else {
            assert_eq!(indexed.refusal, None);
            assert_eq!(buffer[..whole.len()], whole);
            assert!(buffer[whole.len()..].iter().all(|byte| *byte == 7));
        }
    }
}

#[test]
fn a_run_that_is_not_quiet_has_no_index() {
    let mut room = Room::new();
    for text in ["[a", "[[a]\n", "[=ledger]\n", "[]\n", "[a]\nb=\n", "[a]\nb=[1 \"c\"]\n", "[a]\n\u{0}=="] {
        let answer = room.parse_text(text.as_bytes());
        assert!(!answer.is_quiet());
        assert_eq!(answer.index().unwrap_err(), Refusal::NotQuiet, "{text:?}");
        let mut buffer = [7; 2 * ENTRY_SIZE];
        let indexed = answer.index_into(&mut buffer);
        assert_eq!((indexed.refusal, indexed.headers, indexed.bytes), (Some(Refusal::NotQuiet), 0, 0));
        assert_eq!(buffer, [7; 2 * ENTRY_SIZE]);
    }
    // refused texts, also where some events fit
    assert_eq!(room.parse_text(b"[a]\n\xff").index().unwrap_err(), Refusal::NotQuiet);
    let (mut records, mut events, mut errors) = ([0; 60], [0; 8], [0; 0]);
    let answer = deckmarten::parse_text(b"[a]\n", deckmarten::Options::default(), &mut records, &mut events, &mut errors);
    assert_eq!((answer.refusal(), answer.index().unwrap_err()), (Some(Refusal::Events), Refusal::NotQuiet));
}

#[test]
fn no_header_no_byte() {
    let mut room = Room::new();
    for text in ["", "\u{feff}", "\n", "a=1\n", "a=[[[]]]\n", "# [a]\n"] {
        let answer = room.parse_text(text.as_bytes());
        let index = answer.index().unwrap();
        assert_eq!((index.as_bytes().len(), index.headers().count()), (0, 0), "{text:?}");
        assert_eq!(index.find(text.as_bytes(), "a"), None);
    }
    let answer = room.parse(Entry::Key, records("a.b").as_bytes(), 0);
    assert_eq!(answer.index().unwrap().as_bytes().len(), 0);
}

#[test]
fn any_bytes_are_read_as_far_as_they_are_entries() {
    let mut room = Room::new();
    let whole = room.parse_text(b"[a]\n[[b]]\n[c]\n").index().unwrap().into_bytes();
    for cut in 0..=whole.len() {
        let mut read = headers(&whole[..cut]);
        assert_eq!((read.by_ref().count(), read.unread().len()), (cut / ENTRY_SIZE, cut % ENTRY_SIZE));
        assert_eq!(read.next(), None);
    }
    // what an entry's length, kind and mark may not be, in the second
    for (at, byte) in [(0, 16), (0, 18), (1, 1), (2, 1), (3, 128), (4, 0), (4, 2), (5, 1), (12, 2), (12, 255)] {
        let mut bytes = whole.clone();
        bytes[ENTRY_SIZE + at] = byte;
        let mut read = headers(&bytes);
        assert_eq!((read.by_ref().count(), read.unread()), (1, &bytes[ENTRY_SIZE..]), "byte {at} is {byte}");
    }
    // the other bytes may be any, and so may be larger than what a run has: it then has no such events
    let largest = [17, 0, 0, 0, 1, 0, 255, 255, 255, 255, 255, 255, 1, 255, 255, 255, 255];
    let header = headers(&largest).next().unwrap();
    assert_eq!((header.key_parts(), header.is_array_table(), header.events()), (4_294_967_295, true, 65_535..4_295_032_830));
    assert_eq!(room.parse_text(b"[a]\n").events_of(&header).count(), 0);
}

#[test]
fn the_most_headers_and_the_last_place() {
    let mut room = Room::new();
    let text = "[a]\n".repeat(MAX_RECORDS / 4);
    let answer = room.parse_text(&text.as_bytes()[..text.len() - 1]);
    let index = answer.index().unwrap();
    assert_eq!(index.as_bytes().len(), 278_528);
    assert!(index.headers().enumerate().all(|(number, header)| header.events() == (4 * number..(4 * number + 4).min(65_535))));
    let text = "\n".repeat(MAX_RECORDS - 4) + "[a]";
    let answer = room.parse_text(text.as_bytes());
    let header = answer.index().unwrap().find(text.as_bytes(), "a").unwrap();
    assert_eq!(header.events(), 65_532..65_535);
    assert_eq!(answer.events_of(&header).map(|event| event.kind).collect::<Vec<_>>().len(), 3);
    let long = format!("[{}a]", "a.".repeat(32_766));
    let answer = room.parse_text(long.as_bytes());
    let index = answer.index().unwrap();
    let header = index.find(long.as_bytes(), &long[1..long.len() - 1]).unwrap();
    assert_eq!((header.key_parts(), header.events()), (32_767, 0..65_535));
    assert_eq!(answer.events_of(&header).next().unwrap().kind, EventKind::StdTableOpen);
}
