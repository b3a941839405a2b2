//! The lines of errors: the texts where they may surprise, and that they fall back only
//! behind messages 7, 14 and 19.

use oracle::batch;
use oracle::generate;
use oracle::generate::Style;
use oracle::judge;
use oracle::judged_compared;
use oracle::lines::SURPRISING;
use oracle::numbers::ERROR_WORDS;
use oracle::prng::Prng;
use oracle::records::from_pairs;
use oracle::texts;
use oracle::texts::Text;
use oracle::Entry;
use oracle::Judged;

/// The errors of a text.
fn errors(text: &str) -> Vec<[u32; ERROR_WORDS]> {
    match texts::judge(text.as_bytes()).unwrap() {
        Text::Tokens {
            judged: Judged::Walked(lists, None),
            ..
        } => lists.errors,
        _ => panic!("{text:?} is refused"),
    }
}

#[test]
fn lines_that_may_surprise() {
    for (text, wanted) in SURPRISING {
        let found: Vec<[u32; 4]> = errors(text)
            .iter()
            .map(|error| [error[0], error[4], error[5], error[6]])
            .collect();
        assert_eq!(found, wanted, "{text:?}");
    }
}

#[test]
fn the_context_may_be_on_a_later_line() {
    assert_eq!(errors(",\n={a}")[1], [19, 1, 3, 4, 0, 1, 1]);
}

#[test]
fn nothing_is_on_line_1_whatever_the_base() {
    let mut words = [0; ERROR_WORDS];
    let answer = judge(Entry::Key, 3, &[], &mut [], &mut words);
    assert_eq!((answer.errors, words), (1, [4, 4, 0, 0, 0, 0, 1]));
}

#[test]
fn the_shortest_list_whose_lines_fall() {
    let bytes = from_pairs(&[(6, 1), (10, 1), (10, 1)]);
    let Judged::Walked(lists, None) = judged_compared(Entry::Value, 0, &bytes).unwrap() else {
        panic!("refused");
    };
    let lines: Vec<[u32; 2]> = lists
        .errors
        .iter()
        .map(|error| [error[0], error[6]])
        .collect();
    assert_eq!(lines, [[13, 1], [13, 2], [14, 1]]);
}

#[test]
fn lines_fall_only_behind_messages_that_look_back() {
    let (mut prng, mut fallen) = (Prng::new(6), [0; 30]);
    for turn in 0..40_000 {
        let style = [Style::Random, Style::Damaged][turn % 2];
        let case = batch::parse(&generate::case(&mut prng, style, None, 40)).unwrap();
        let judged = judged_compared(case.entry, case.base, &case.bytes).unwrap();
        let Judged::Walked(lists, _) = judged else {
            continue;
        };
        for pair in lists.errors.windows(2) {
            fallen[pair[1][0] as usize] += usize::from(pair[1][6] < pair[0][6]);
        }
    }
    let which: Vec<usize> = (0..30).filter(|message| fallen[*message] > 0).collect();
    assert_eq!(which, [7, 14, 19]);
}
