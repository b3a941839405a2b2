//! The index of headers, worked out from the events of a run as document 02 says it, and
//! apart from the library: all open events are found first, and each header is then the
//! part of the list from its own to the next.

use crate::Answer;

/// Refusals of an index.
pub const NOT_QUIET: u32 = 12;
pub const NO_ROOM: u32 = 13;
/// Bytes of an entry, and the kind of the entries that are written.
pub const ENTRY: usize = 17;
const KIND: u16 = 1;
/// The most events that a quiet run can have: as many as there may be records.
pub const MOST_EVENTS: usize = crate::records::MAX_RECORDS;

/// Kinds of events.
const STD_TABLE_OPEN: u32 = 1;
const STD_TABLE_CLOSE: u32 = 2;
const ARRAY_TABLE_OPEN: u32 = 3;
const ARRAY_TABLE_CLOSE: u32 = 4;
const SIMPLE_KEY: u32 = 5;

/// A table header.
#[derive(Copy, Clone, PartialEq, Eq, Debug)]
pub struct Header {
    /// The number of its open event.
    pub place: usize,
    pub parts: usize,
    pub array: bool,
    /// From the open event up to the next header or the end.
    pub events: usize,
}

/// What an index answers.
#[derive(Copy, Clone, Default, PartialEq, Eq, Debug)]
pub struct Indexed {
    pub refusal: u32,
    pub headers: usize,
    pub bytes: usize,
}

/// What is at a position in an index.
#[derive(Copy, Clone, PartialEq, Eq, Debug)]
pub enum Found {
    None,
    Header(Header),
    NoEntry,
}

/// The headers of events of these kinds.
pub fn headers(kinds: &[u32]) -> Vec<Header> {
    let opens = |kind: &u32| [STD_TABLE_OPEN, ARRAY_TABLE_OPEN].contains(kind);
    let places: Vec<usize> = (0..kinds.len()).filter(|at| opens(&kinds[*at])).collect();
    let ends = places.iter().skip(1).copied().chain([kinds.len()]);
    let both = places.iter().copied().zip(ends);
    both.map(|(place, end)| header(place, &kinds[place..end]))
        .collect()
}

/// The header whose table has these kinds of events.
fn header(place: usize, table: &[u32]) -> Header {
    let array = table[0] == ARRAY_TABLE_OPEN;
    let close = if array {
        ARRAY_TABLE_CLOSE
    } else {
        STD_TABLE_CLOSE
    };
    let key = table.iter().take_while(|kind| **kind != close);
    Header {
        place,
        parts: key.filter(|kind| **kind == SIMPLE_KEY).count(),
        array,
        events: table.len(),
    }
}

/// The kinds of as many events as the answer counts, if it is that of a quiet run whose
/// events these words hold.
pub fn quiet_kinds(answer: &Answer, words: &[u32]) -> Option<Vec<u32>> {
    let held = words.len() / 4;
    if answer.refusal != 0 || answer.errors != 0 || answer.events > held.min(MOST_EVENTS) {
        return None;
    }
    let events = || words.chunks_exact(4).take(answer.events);
    let none_empty = events().all(|event| event[2] != event[3]);
    none_empty.then(|| events().map(|event| event[0]).collect())
}

/// The entries of headers, one behind the other. A place that two bytes cannot hold is a
/// panic: no quiet run has it.
pub fn entries(headers: &[Header]) -> Vec<u8> {
    let mut bytes = Vec::new();
    for header in headers {
        let place = u16::try_from(header.place).expect("a place of two bytes");
        bytes.extend((ENTRY as u32).to_le_bytes());
        bytes.extend(KIND.to_le_bytes());
        bytes.extend(place.to_le_bytes());
        bytes.extend((header.parts as u32).to_le_bytes());
        bytes.push(u8::from(header.array));
        bytes.extend((header.events as u32).to_le_bytes());
    }
    bytes
}

/// What the index answers in a room of so many bytes, if its headers are these; none if
/// the run is not quiet.
pub fn indexed(headers: Option<&[Header]>, room: usize) -> Indexed {
    let Some(headers) = headers else {
        return Indexed {
            refusal: NOT_QUIET,
            ..Indexed::default()
        };
    };
    let bytes = ENTRY * headers.len();
    Indexed {
        refusal: if bytes > room { NO_ROOM } else { 0 },
        headers: headers.len(),
        bytes,
    }
}

/// What is at a position in these bytes.
pub fn found(bytes: &[u8], at: usize) -> Found {
    if at == bytes.len() {
        return Found::None;
    }
    let Some(entry) = at.checked_add(ENTRY).and_then(|end| bytes.get(at..end)) else {
        return Found::NoEntry;
    };
    if entry[..6] != [ENTRY as u8, 0, 0, 0, KIND as u8, 0] || entry[12] > 1 {
        return Found::NoEntry;
    }
    let number = |bytes: &[u8]| {
        bytes
            .iter()
            .rev()
            .fold(0, |sum, byte| 256 * sum + usize::from(*byte))
    };
    Found::Header(Header {
        place: number(&entry[6..8]),
        parts: number(&entry[8..12]),
        array: entry[12] == 1,
        events: number(&entry[13..]),
    })
}

#[cfg(test)]
mod tests {
    use super::*;

    #[test]
    fn headers_of_some_kinds() {
        // a newline; `[a.b]` and a newline; `[[a]]`, a key, `=` and a value
        let kinds = [16, 1, 5, 6, 5, 2, 16, 3, 5, 4, 5, 7, 8];
        let found = headers(&kinds);
        let header = |place, parts, array, events| Header {
            place,
            parts,
            array,
            events,
        };
        assert_eq!(found, [header(1, 2, false, 6), header(7, 1, true, 6)]);
        let bytes = entries(&found);
        assert_eq!(
            bytes[ENTRY..],
            [17, 0, 0, 0, 1, 0, 7, 0, 1, 0, 0, 0, 1, 6, 0, 0, 0]
        );
        assert_eq!(super::found(&bytes, 0), Found::Header(found[0]));
        assert_eq!(super::found(&bytes, ENTRY), Found::Header(found[1]));
        assert_eq!(super::found(&bytes, 2 * ENTRY), Found::None);
        for at in [1, 18, 33, 35, usize::MAX] {
            assert_eq!(super::found(&bytes, at), Found::NoEntry);
        }
        assert_eq!(headers(&[]), []);
    }

    #[test]
    fn what_is_not_quiet() {
        let words = [16, 0, 0, 1, 16, 0, 1, 2, 16];
        let answer = |refusal, events, errors| Answer {
            refusal,
            place: 0,
            events,
            errors,
        };
        assert_eq!(quiet_kinds(&answer(0, 2, 0), &words), Some(vec![16, 16]));
        assert_eq!(quiet_kinds(&answer(0, 1, 0), &words), Some(vec![16]));
        for loud in [
            answer(7, 2, 0),
            answer(0, 2, 1),
            answer(0, 3, 0),
            answer(0, usize::MAX, 0),
        ] {
            assert_eq!(quiet_kinds(&loud, &words), None);
        }
        assert_eq!(
            quiet_kinds(&answer(0, 2, 0), &[16, 0, 0, 1, 16, 0, 2, 2]),
            None
        );
    }
}
