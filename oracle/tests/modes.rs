//! Brace mode: where message 19 is in it, and that nothing else differs from crate mode.

use oracle::batch;
use oracle::batch::Case;
use oracle::generate;
use oracle::generate::Style;
use oracle::judged_compared;
use oracle::modes::BLAMED;
use oracle::modes::BRACE;
use oracle::modes::CRATE;
use oracle::modes::UNKNOWN;
use oracle::prng::Prng;
use oracle::records;
use oracle::texts;
use oracle::texts::Rooms;
use oracle::texts::Text;
use oracle::walk::Lists;
use oracle::Entry;
use oracle::Judged;

/// Where the reports of message 19 are, and their lines, in this mode.
fn blamed(text: &str, mode: u32) -> Vec<[u32; 3]> {
    match texts::judge(text.as_bytes()).unwrap().in_mode(mode) {
        Text::Tokens {
            judged: Judged::Walked(lists, None),
            ..
        } => {
            let trailing = lists.errors.iter().filter(|error| error[0] == 19);
            trailing
                .map(|error| [error[4], error[5], error[6]])
                .collect()
        }
        _ => panic!("{text:?} is refused"),
    }
}

#[test]
fn commas_that_are_marked() {
    for (text, in_crate, in_brace) in BLAMED {
        assert_eq!(blamed(text, CRATE), in_crate, "{text:?}");
        assert_eq!(blamed(text, BRACE), in_brace, "{text:?}");
    }
}

/// The sentence, by counting through the tokens: of all `{` and `}` that document.rs may mean by
/// the context and the next event, what lies between them.
fn by_the_sentence(lists: &Lists, base: u32, bytes: &[u8]) -> Vec<[u32; 3]> {
    let tokens = records::tokens(base, bytes).unwrap();
    let record_of = |kind: u16, start: u32| {
        let here = |place: &usize| {
            tokens[*place].kind().number() == kind
                && tokens[*place].span().start() == start as usize
        };
        (0..tokens.len()).find(here).unwrap()
    };
    let mut found = Vec::new();
    for (error, before) in lists.errors.iter().zip(&lists.events_before) {
        if error[0] != 19 {
            continue;
        }
        let close = record_of(7, lists.events[*before][2]);
        let mut place = [tokens[close].span().start() as u32; 2];
        for token in &tokens[record_of(6, error[2]) + 1..close] {
            if token.kind().number() == 3 {
                place = [token.span().start() as u32, token.span().end() as u32];
            }
        }
        let newlines = tokens
            .iter()
            .filter(|token| token.kind().number() == 10 && token.span().end() <= place[0] as usize);
        found.push([place[0], place[1], 1 + newlines.count() as u32]);
    }
    found
}

/// A list of brackets, commas and what a pair is made of, at the value entry in an array; or one
/// as they are drawn elsewhere.
fn drawn(prng: &mut Prng, turn: usize) -> Case {
    if turn % 2 == 0 {
        let style = [Style::Random, Style::Damaged][turn / 2 % 2];
        return batch::parse(&generate::case(prng, style, None, 40)).unwrap();
    }
    let mut pairs = vec![(4, 1), (3, 1)];
    for _ in 0..prng.below(24) {
        pairs.push((prng.pick(&[2, 3, 4, 5, 6, 6, 7, 7, 8, 10, 15, 15]), 1));
    }
    let base = prng.below(3) as u32;
    Case::at(Entry::Value, base, records::from_pairs(&pairs))
}

#[test]
fn only_message_19_differs_and_it_is_the_sentence() {
    let (mut prng, mut reports, mut moved) = (Prng::new(19), 0, 0);
    for turn in 0..60_000 {
        let case = drawn(&mut prng, turn);
        let judged = judged_compared(case.entry, case.base, &case.bytes).unwrap();
        let other = judged.in_mode(BRACE, case.base, &case.bytes);
        let (Judged::Walked(crate_mode, stop), Judged::Walked(brace_mode, other_stop)) =
            (&judged, &other)
        else {
            assert_eq!(judged, other);
            continue;
        };
        assert_eq!(stop, other_stop);
        assert_eq!(crate_mode.events, brace_mode.events);
        assert_eq!(crate_mode.errors.len(), brace_mode.errors.len());
        let mut places = Vec::new();
        for (before, after) in crate_mode.errors.iter().zip(&brace_mode.errors) {
            if before[0] == 19 {
                assert_eq!(before[..4], after[..4]);
                places.push([after[4], after[5], after[6]]);
                moved += usize::from(before != after);
            } else {
                assert_eq!(before, after);
            }
        }
        assert_eq!(places, by_the_sentence(crate_mode, case.base, &case.bytes));
        assert_eq!(judged.hangs_on_mode(), !places.is_empty());
        reports += places.len();
    }
    assert!(
        moved > 1000 && reports > moved + 500,
        "{moved} of {reports}"
    );
}

#[test]
fn an_unknown_mode_is_refused_before_all_else() {
    for mode in UNKNOWN {
        // one that is read, one of a length that is no multiple, and a base that is too high
        for (base, bytes) in [
            (0, vec![1, 0, 0, 0, 15, 0]),
            (0, vec![1]),
            (u32::MAX, vec![]),
        ] {
            let judged = judged_compared(Entry::Value, base, &bytes).unwrap();
            let (mut events, mut errors) = ([9; 8], [9; 14]);
            let refused = judged.in_mode(mode, base, &bytes);
            let answer = refused.answer(&mut events, &mut errors);
            assert_eq!((answer.refusal, answer.place), (15, 0));
            assert_eq!((answer.events, answer.errors), (0, 0));
            assert_eq!((events, errors), ([9; 8], [9; 14]));
        }
        for text in [&b"x={a=}"[..], b"\xff"] {
            let answer = texts::judge(text).unwrap().parsed(mode, Rooms::default());
            assert_eq!((answer.lexed.refusal, answer.lexed.place), (15, 0));
            assert_eq!((answer.lexed.base, answer.lexed.records), (0, 0));
            assert_eq!((answer.events, answer.errors), (0, 0));
        }
    }
}
