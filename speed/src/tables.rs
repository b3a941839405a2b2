//! Finding one table of many: by the index of headers, by looking through all events, both with the crate for Rust programs, and by
//! looking through the event words as a C program would.

use deckmarten::limits::enough_error_words;
use deckmarten::limits::enough_event_words;
use deckmarten::limits::enough_records;
use deckmarten::limits::EVENT_SIZE;
use deckmarten::limits::MAX_RECORDS;
use deckmarten::limits::RECORD_SIZE;
use deckmarten::Answer;
use deckmarten::EventKind;
use deckmarten::Index;

/// Makes the index, finds the table in all ways, sees that it is the same, and prints `tables events`.
pub fn find(text: &[u8], path: &str) -> Result<(), String> {
    let records = enough_records(text.len());
    let counted = records.min(MAX_RECORDS);
    let mut bytes = vec![0; RECORD_SIZE * records];
    let mut words = vec![0; enough_event_words(counted)];
    let mut errors = vec![0; enough_error_words(counted)];
    let answer = deckmarten::parse_text(
        text,
        deckmarten::Options::default(),
        &mut bytes,
        &mut words,
        &mut errors,
    );
    let (events, index) = (answer.event_count(), index(&answer));
    let tables = index.headers().count();
    let places = [
        by_index(&index, text, path),
        by_events(&answer, text, path),
        by_words(&words[..EVENT_SIZE * events], text, path),
    ];
    if places[0].is_none() || places[1..] != [places[0]; 2] {
        return Err(format!("the table is found at {places:?}"));
    }
    println!("{tables} {events}");
    Ok(())
}

/// What callgrind counts in this function is the making of the index: a call that asks how large it is, and one that writes it.
#[inline(never)]
fn index<'b>(answer: &Answer<'b>) -> Index<'b> {
    answer.index().expect("the run is quiet")
}

/// The place of the table's open event, by the index.
#[inline(never)]
fn by_index(index: &Index, text: &[u8], path: &str) -> Option<usize> {
    index.find(text, path).map(|header| header.events().start)
}

/// The same, event by event.
#[inline(never)]
fn by_events(answer: &Answer, text: &[u8], path: &str) -> Option<usize> {
    let events = answer.events();
    scan(
        events.map(|event| (event.kind.number(), event.span.range())),
        text,
        path,
    )
}

/// The same, over the words.
#[inline(never)]
fn by_words(words: &[u32], text: &[u8], path: &str) -> Option<usize> {
    let events = words.chunks_exact(EVENT_SIZE);
    scan(
        events.map(|event| (event[0], event[2] as usize..event[3] as usize)),
        text,
        path,
    )
}

const STD_TABLE_OPEN: u32 = EventKind::StdTableOpen.number();
const ARRAY_TABLE_OPEN: u32 = EventKind::ArrayTableOpen.number();
const STD_TABLE_CLOSE: u32 = EventKind::StdTableClose.number();
const ARRAY_TABLE_CLOSE: u32 = EventKind::ArrayTableClose.number();
const SIMPLE_KEY: u32 = EventKind::SimpleKey.number();
const KEY_SEP: u32 = EventKind::KeySep.number();

/// Looks through all events, each with its kind and span.
#[inline(always)]
fn scan(
    events: impl Iterator<Item = (u32, std::ops::Range<usize>)>,
    text: &[u8],
    path: &str,
) -> Option<usize> {
    // where the header began, and what of the path its key has not met; none if it is another, or no header
    let mut header: Option<(usize, &[u8])> = None;
    for (number, (kind, span)) in events.enumerate() {
        match (kind, header) {
            (STD_TABLE_OPEN | ARRAY_TABLE_OPEN, _) => header = Some((number, path.as_bytes())),
            (_, None) => {}
            (SIMPLE_KEY, Some((place, rest))) => {
                header = rest.strip_prefix(&text[span]).map(|rest| (place, rest));
            }
            (KEY_SEP, Some((place, rest))) => {
                header = rest.strip_prefix(b".").map(|rest| (place, rest));
            }
            (STD_TABLE_CLOSE | ARRAY_TABLE_CLOSE, Some((place, rest))) => {
                if rest.is_empty() {
                    return Some(place);
                }
                header = None;
            }
            _ => {}
        }
    }
    None
}
