//! Rooms for texts, by what a text needs.

use oracle::feeding::SPARE;
use oracle::prng::Prng;
use oracle::texts::Rooms;

/// Bytes and words to spare; room for an event a record too, which judging wants.
pub fn ample(needs: &Rooms) -> Rooms {
    Rooms {
        record_bytes: needs.record_bytes + 8,
        event_words: needs.event_words.max(4 * (needs.record_bytes / 6)) + SPARE.0,
        error_words: needs.error_words + SPARE.1,
    }
}

/// So many bytes for records and words for events fewer.
pub fn less(rooms: Rooms, record_bytes: usize, event_words: usize) -> Rooms {
    Rooms {
        record_bytes: rooms.record_bytes.saturating_sub(record_bytes),
        event_words: rooms.event_words.saturating_sub(event_words),
        ..rooms
    }
}

/// Rooms by number: 0 perhaps too little for records, 1 for events, 2 for errors, 3 just
/// enough, 4 the same with an event a record; else ample.
pub fn some(prng: &mut Prng, needs: Rooms, which: usize) -> Rooms {
    let enough = ample(&needs);
    match which {
        0 => Rooms {
            record_bytes: prng.below(needs.record_bytes + 1),
            ..enough
        },
        1 => Rooms {
            event_words: prng.below(enough.event_words + 1),
            ..enough
        },
        2 => Rooms {
            error_words: prng.below(needs.error_words + 1),
            ..enough
        },
        3 => needs,
        4 => Rooms {
            event_words: needs.event_words.max(4 * (needs.record_bytes / 6)),
            ..needs
        },
        _ => enough,
    }
}

/// Each room for records from none to enough, then each for events, then each for
/// errors, the other two being ample.
pub fn all_rooms(needs: &Rooms) -> Vec<Rooms> {
    let enough = ample(needs);
    let records = (0..=enough.record_bytes).map(|record_bytes| Rooms {
        record_bytes,
        ..enough
    });
    let events = (0..enough.event_words).map(|event_words| Rooms {
        event_words,
        ..enough
    });
    let errors = (0..enough.error_words).map(|error_words| Rooms {
        error_words,
        ..enough
    });
    records.chain(events).chain(errors).collect()
}
