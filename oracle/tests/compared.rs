//! The counted copy against the unchanged original on random lists, and lists as
//! long as may be on which the original calls itself for each token.

use oracle::batch;
use oracle::generate;
use oracle::generate::Style;
use oracle::judge;
use oracle::judge_compared;
use oracle::numbers::ERROR_WORDS;
use oracle::prng::Prng;
use oracle::records::from_pairs;
use oracle::walk;
use oracle::Entry;

/// The answer of the main function, in the form of batch mode.
fn uncompared(line: &str) -> String {
    let case = batch::parse(line).unwrap();
    let mut events = vec![0; case.event_words];
    let mut errors = vec![0; case.error_words];
    let answer = judge(case.entry, case.base, &case.bytes, &mut events, &mut errors);
    batch::render(&answer, &events, &errors)
}

/// Answers this many cases and counts the refusals among them.
fn run(style: Style, seed: u64, count: usize, most: usize) -> [usize; 9] {
    let mut prng = Prng::new(seed);
    let mut refusals = [0; 9];
    for _ in 0..count {
        let line = generate::case(&mut prng, style, None, most);
        let answer = batch::answer_line(&line).unwrap_or_else(|text| panic!("{line}\n{text}"));
        assert_eq!(answer, uncompared(&line), "{line}");
        let number = answer.split(' ').next().unwrap();
        refusals[number.parse::<usize>().unwrap()] += 1;
    }
    refusals
}

#[test]
fn random_lists() {
    let refusals = run(Style::Random, 1, 10_000, 40);
    assert!(
        [0, 5, 7, 8].iter().all(|number| refusals[*number] > 0),
        "{refusals:?}"
    );
    let refusals = run(Style::Random, 2, 3_000, 250);
    assert!(
        [0, 5, 6, 7, 8].iter().all(|number| refusals[*number] > 0),
        "{refusals:?}"
    );
}

#[test]
fn damaged_lists() {
    let refusals = run(Style::Damaged, 3, 10_000, 60);
    assert!(
        [0, 5, 7, 8].iter().all(|number| refusals[*number] > 0),
        "{refusals:?}"
    );
}

#[test]
fn malformed_lists() {
    let refusals = run(Style::Malformed, 4, 10_000, 12);
    assert!(
        [1, 3, 4, 5].iter().all(|number| refusals[*number] > 0),
        "{refusals:?}"
    );
}

#[test]
fn lists_after_the_grammar_have_no_errors() {
    let mut prng = Prng::new(5);
    for _ in 0..10_000 {
        let line = generate::case(&mut prng, Style::Valid, None, 60);
        let case = batch::parse(&line).unwrap();
        // A multi-line string is a key part for document 01; the simple_key entry
        // reports it all the same.
        let ml_key = case.entry == Entry::SimpleKey && matches!(case.bytes[4], 13 | 14);
        let mut events = vec![0; case.event_words];
        let mut errors = vec![0; case.error_words];
        let answer =
            judge_compared(case.entry, case.base, &case.bytes, &mut events, &mut errors).unwrap();
        assert_eq!(
            (answer.refusal, answer.errors),
            (0, usize::from(ml_key)),
            "{line}"
        );
        assert!(events.chunks(4).all(|event| event[0] != 17), "{line}");
    }
}

#[test]
fn the_same_seed_gives_the_same_cases() {
    for style in [
        Style::Random,
        Style::Damaged,
        Style::Valid,
        Style::Malformed,
    ] {
        let case = |seed| generate::case(&mut Prng::new(seed), style, None, 30);
        assert_eq!(case(7), case(7));
        assert_ne!((case(7), case(8), case(9)), (case(10), case(11), case(12)));
    }
}

#[test]
fn a_large_stack_is_enough_without_further_threads() {
    let bytes = from_pairs(&vec![(4, 1); 65_536]);
    let run = || judge_compared(Entry::Value, 0, &bytes, &mut [], &mut []).unwrap();
    assert_eq!(walk::on_large_stack(run), run());
}

#[test]
fn longest_lists_on_which_the_original_calls_itself() {
    let one = |kind: u16| vec![(kind, 1); 65_536];
    let repeated = |part: &[(u16, u32)]| part.iter().copied().cycle().take(65_536).collect();
    let comments = one(9);
    let equals = one(2);
    let arrays = one(4);
    let tables: Vec<(u16, u32)> = repeated(&[(6, 1), (15, 1), (2, 1)]);
    let both: Vec<(u16, u32)> = repeated(&[(4, 1), (6, 1), (15, 1), (2, 1)]);
    let content: Vec<(u16, u32)> = repeated(&[(9, 1), (15, 1)]);
    for (pairs, refusal) in [
        (comments, 0),
        (equals, 0),
        (arrays, 6),
        (tables, 6),
        (both, 6),
        (content, 0),
    ] {
        for entry in [Entry::Document, Entry::Value] {
            let mut events = vec![0; 4 * 4 * 65_536];
            let mut errors = vec![0; ERROR_WORDS * 4 * 65_536];
            let bytes = from_pairs(&pairs);
            let answer = judge_compared(entry, 0, &bytes, &mut events, &mut errors).unwrap();
            let wanted = if entry == Entry::Value { refusal } else { 0 };
            assert_eq!(answer.refusal, wanted);
        }
    }
}
