//! The eight refusals of document 01 with their places, at and beyond each limit.

use oracle::judge;
use oracle::judge_compared;
use oracle::judge_with_levels;
use oracle::numbers::ERROR_WORDS;
use oracle::records::from_pairs;
use oracle::Answer;
use oracle::Entry;

/// What stands in a word that nothing was written to.
const UNTOUCHED: u32 = 0xdead_beef;

fn answer(refusal: u32, place: usize, events: usize, errors: usize) -> Answer {
    Answer {
        refusal,
        place,
        events,
        errors,
    }
}

/// The answer with ample room, compared with the unchanged original.
fn ample(entry: Entry, base: u32, bytes: &[u8]) -> Answer {
    let mut events = vec![UNTOUCHED; 4 * (bytes.len() + 8)];
    let mut errors = vec![UNTOUCHED; ERROR_WORDS * (bytes.len() + 8)];
    let answer = judge_compared(entry, base, bytes, &mut events, &mut errors).unwrap();
    assert!(events[4 * answer.events..]
        .iter()
        .all(|word| *word == UNTOUCHED));
    assert!(errors[ERROR_WORDS * answer.errors..]
        .iter()
        .all(|word| *word == UNTOUCHED));
    answer
}

/// `count` records of one kind, each of length 1.
fn many(kind: u16, count: usize) -> Vec<u8> {
    from_pairs(&vec![(kind, 1); count])
}

#[test]
fn refusal_1_is_a_cut_record() {
    assert_eq!(ample(Entry::Document, 0, &[0; 5]), answer(1, 0, 0, 0));
    assert_eq!(ample(Entry::Key, 0, &[0; 13]), answer(1, 2, 0, 0));
    // Before 2 and 5: too many records and a base too high do not matter.
    assert_eq!(
        ample(Entry::Value, u32::MAX, &vec![0; 65_537 * 6 + 1]),
        answer(1, 65_537, 0, 0)
    );
}

#[test]
fn refusal_2_is_too_many_records() {
    assert_eq!(
        ample(Entry::Document, 0, &many(10, 65_536)),
        answer(0, 0, 65_536, 0)
    );
    assert_eq!(
        ample(Entry::Document, 0, &many(10, 65_537)),
        answer(2, 65_536, 0, 0)
    );
    // Before 5, 3 and 4.
    assert_eq!(
        ample(Entry::Document, u32::MAX, &many(0, 65_537)),
        answer(2, 65_536, 0, 0)
    );
}

#[test]
fn refusal_3_is_a_kind_that_is_none() {
    for kind in [0, 17, 256, 65_535] {
        let bytes = from_pairs(&[(15, 1), (kind, 1)]);
        assert_eq!(ample(Entry::Key, 0, &bytes), answer(3, 1, 0, 0));
    }
    // The kind comes before the length of the same record.
    assert_eq!(
        ample(Entry::Key, 0, &from_pairs(&[(17, 0)])),
        answer(3, 0, 0, 0)
    );
}

#[test]
fn refusal_4_is_a_length_wrong_for_its_kind() {
    for kind in 1..=16 {
        for length in [0, 1, 2, 256, 65_536] {
            let right = match kind {
                1..=7 => length == 1,
                16 => length == 0,
                _ => length >= 1,
            };
            let found = ample(Entry::Value, 5, &from_pairs(&[(15, 1), (kind, length)]));
            assert_eq!(found.refusal, if right { 0 } else { 4 }, "{kind}:{length}");
            assert_eq!(found.place, usize::from(!right));
        }
    }
    // The length comes before the end of the same record, and an earlier record
    // before a later one.
    let bytes = from_pairs(&[(16, u32::MAX), (0, 0)]);
    assert_eq!(ample(Entry::Value, 0, &bytes), answer(4, 0, 0, 0));
}

#[test]
fn refusal_5_is_a_place_too_high() {
    let eof = from_pairs(&[(16, 0)]);
    let atom = from_pairs(&[(15, 1)]);
    assert_eq!(ample(Entry::Document, 16_777_216, &eof), answer(0, 0, 0, 0));
    assert_eq!(
        ample(Entry::Document, 16_777_216, &atom),
        answer(5, 0, 0, 0)
    );
    assert_eq!(ample(Entry::Document, 16_777_215, &atom).refusal, 0);
    assert_eq!(ample(Entry::Document, 16_777_217, &eof), answer(5, 0, 0, 0));
    assert_eq!(ample(Entry::Document, u32::MAX, &[]), answer(5, 0, 0, 0));
    // The base comes before any record; sums do not wrap.
    assert_eq!(
        ample(Entry::Key, 16_777_217, &from_pairs(&[(0, 0)])),
        answer(5, 0, 0, 0)
    );
    let bytes = from_pairs(&[(15, 1), (16, 0), (8, u32::MAX), (0, 9)]);
    assert_eq!(ample(Entry::Key, 16_777_215, &bytes), answer(5, 2, 0, 0));
}

#[test]
fn early_refusals_leave_the_buffers_alone() {
    let cases: [(u32, &[(u16, u32)]); 3] = [
        (0, &[(15, 1), (0, 1)]),
        (0, &[(15, 1), (16, 1)]),
        (16_777_215, &[(15, 1), (2, 1)]),
    ];
    for (base, pairs) in cases {
        let (mut events, mut errors) = ([UNTOUCHED; 40], [UNTOUCHED; 60]);
        let found = judge(
            Entry::Document,
            base,
            &from_pairs(pairs),
            &mut events,
            &mut errors,
        );
        assert_eq!((found.place, found.events, found.errors), (1, 0, 0));
        assert_eq!((events, errors), ([UNTOUCHED; 40], [UNTOUCHED; 60]));
    }
}

#[test]
fn refusal_6_is_the_65th_level() {
    assert_eq!(ample(Entry::Value, 0, &many(4, 64)), answer(0, 0, 128, 64));
    assert_eq!(ample(Entry::Value, 0, &many(4, 65)), answer(6, 64, 64, 0));
    assert_eq!(
        ample(Entry::Value, 9, &many(4, 65_536)),
        answer(6, 64, 64, 0)
    );
    // Closing gives a level back: with 64 open, `],[],[` opens no 65th, one more does.
    let mut pairs = vec![(4, 1); 64];
    pairs.extend([(5, 1), (3, 1), (4, 1), (5, 1), (3, 1), (4, 1)]);
    assert_eq!(ample(Entry::Value, 0, &from_pairs(&pairs)).refusal, 0);
    pairs.push((4, 1));
    assert_eq!(
        ample(Entry::Value, 0, &from_pairs(&pairs)),
        answer(6, 70, 70, 0)
    );
    // What is emitted before the stop counts: string, missing comma and its error.
    let mut pairs = vec![(4, 1); 64];
    pairs.extend([(12, 3), (6, 1)]);
    assert_eq!(
        ample(Entry::Value, 0, &from_pairs(&pairs)),
        answer(6, 65, 66, 1)
    );
}

#[test]
fn invented_opens_and_skipped_brackets_take_no_level() {
    // `}` in the 64th array invents an inline table; it does not nest.
    let mut pairs = vec![(4, 1); 64];
    pairs.extend([(7, 1), (3, 1), (7, 1)]);
    assert_eq!(ample(Entry::Value, 0, &from_pairs(&pairs)).refusal, 0);
    // In the 64th level, `{[[[` skips its brackets and opens nothing.
    let mut pairs = vec![(4, 1); 63];
    pairs.extend([(6, 1), (4, 1), (4, 1), (4, 1)]);
    assert_eq!(ample(Entry::Value, 0, &from_pairs(&pairs)).refusal, 0);
}

#[test]
fn levels_are_a_parameter() {
    for levels in 0..5 {
        let found = judge_with_levels(Entry::Value, 0, &many(4, 5), levels, &mut [], &mut []);
        assert_eq!(found, answer(6, levels, levels, 0));
    }
    let found = judge_with_levels(
        Entry::Value,
        0,
        &many(4, 5),
        5,
        &mut [0; 40],
        &mut [0; 5 * ERROR_WORDS],
    );
    assert_eq!(found, answer(0, 0, 10, 5));
}

#[test]
fn refusal_6_writes_what_fits_and_goes_before_7_and_8() {
    let (mut events, mut errors) = ([UNTOUCHED; 11], [UNTOUCHED; 5]);
    let found = judge(Entry::Value, 3, &many(4, 65), &mut events, &mut errors);
    assert_eq!(found, answer(6, 64, 64, 0));
    assert_eq!(events[..8], [10, 0, 3, 4, 10, 0, 4, 5]);
    assert_eq!(events[8..], [UNTOUCHED; 3]);
    assert_eq!(errors, [UNTOUCHED; 5]);
}

#[test]
fn refusals_7_and_8_are_lists_that_do_not_fit() {
    // `[}]`: four events and one error.
    let bytes = from_pairs(&[(4, 1), (7, 1), (5, 1), (16, 0)]);
    let run = |event_words, error_words| {
        let mut events = vec![UNTOUCHED; event_words];
        let mut errors = vec![UNTOUCHED; error_words];
        let found = judge(Entry::Value, 0, &bytes, &mut events, &mut errors);
        (found, events, errors)
    };
    let whole = [10, 0, 0, 1, 12, 0, 1, 1, 13, 0, 1, 2, 11, 0, 2, 3];
    let error = [11, 9, 1, 2, 1, 1, 1];
    assert_eq!(
        run(16, ERROR_WORDS),
        (answer(0, 0, 4, 1), whole.to_vec(), error.to_vec())
    );
    let (found, events, errors) = run(15, ERROR_WORDS);
    assert_eq!((found, &errors[..]), (answer(7, 0, 4, 1), &error[..]));
    assert_eq!(
        (&events[..12], &events[12..]),
        (&whole[..12], &[UNTOUCHED; 3][..])
    );
    let (found, events, errors) = run(19, ERROR_WORDS - 1);
    assert_eq!(
        (found, errors),
        (answer(8, 0, 4, 1), vec![UNTOUCHED; ERROR_WORDS - 1])
    );
    assert_eq!(
        (&events[..16], &events[16..]),
        (&whole[..], &[UNTOUCHED; 3][..])
    );
    let (found, events, errors) = run(0, 2 * ERROR_WORDS - 1);
    assert_eq!((found, events), (answer(7, 0, 4, 1), vec![]));
    assert_eq!(
        (&errors[..ERROR_WORDS], &errors[ERROR_WORDS..]),
        (&error[..], &[UNTOUCHED; ERROR_WORDS - 1][..])
    );
    assert_eq!(run(0, 0).0, answer(7, 0, 4, 1));
}
