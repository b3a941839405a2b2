//! For the program that wants yes or no: quiet and fitting lists, and lists that only seem so.

mod common;

use common::records;
use deckmarten::{fits, is_regular, parse_document, Entry, Options, Refusal, Refused, Room, Verdict};

#[test]
fn documents_fit() {
    for text in ["$", " $", "a=1$", "a=1\n$", "#\n[a.b]\nc='\n\n[[d]]\n e={f=[1,2\n,3,],g=\"} #\n$"] {
        assert_eq!(fits(records(text).as_bytes(), 0), Verdict::Fits, "{text:?}");
    }
}

#[test]
fn lists_without_an_error_report_need_not_fit() {
    let mut room = Room::new();
    for text in ["[=x]\n$", "[]$", "a=\n$"] {
        let records = records(text);
        let answer = room.parse(Entry::Document, records.as_bytes(), 0);
        assert_eq!((answer.refusal(), answer.error_count(), answer.is_quiet()), (None, 0, false), "{text:?}");
        assert_eq!(fits(records.as_bytes(), 0), Verdict::DoesNotFit, "{text:?}");
    }
}

#[test]
fn multi_line_keys_do_not_fit_even_if_quiet() {
    let mut room = Room::new();
    for (text, keys) in [("[B]$", 1), ("L=a$", 1), ("a.L=a\nB=a$", 2), ("a={B=a}$", 1), ("a=[B,L]$", 0)] {
        let records = records(text);
        let answer = room.parse(Entry::Document, records.as_bytes(), 0);
        assert!(answer.is_quiet(), "{text:?}");
        assert_eq!(answer.events().filter(|event| event.is_multi_line_key()).count(), keys, "{text:?}");
        assert_eq!(fits(records.as_bytes(), 0).is_yes(), keys == 0, "{text:?}");
    }
}

#[test]
fn irregular_lists_do_not_fit_even_if_quiet() {
    let mut room = Room::new();
    for text in ["", "a", "a=1", "a=1\n", "$$", "$$b", "a=1$b=2$", "  $"] {
        let records = records(text);
        assert!(room.parse(Entry::Document, records.as_bytes(), 0).is_quiet(), "{text:?}");
        assert!(!is_regular(records.as_bytes()), "{text:?}");
        assert_eq!(fits(records.as_bytes(), 0), Verdict::DoesNotFit, "{text:?}");
    }
    assert!(is_regular(records(" a = 1 $").as_bytes()));
}

#[test]
fn too_little_room_is_never_quiet() {
    let records = records("a=1\nb=2\n$");
    let wanted = 8;
    for words in 0..=4 * wanted {
        let mut events = vec![7; words];
        let answer = parse_document(records.as_bytes(), 0, Options::default(), &mut events, &mut []);
        assert_eq!((answer.event_count(), answer.events().len()), (wanted, words / 4));
        assert_eq!(answer.refusal(), (words < 4 * wanted).then_some(Refusal::Events));
        assert_eq!(answer.is_quiet(), words == 4 * wanted);
    }
}

#[test]
fn an_error_that_does_not_fit_is_not_quiet() {
    let records = records("a\n$");
    let (mut events, mut errors) = ([0; 8], [0; 5]);
    let answer = parse_document(records.as_bytes(), 0, Options::default(), &mut events, &mut errors);
    assert_eq!(answer.refusal(), Some(Refusal::Errors));
    assert_eq!((answer.error_count(), answer.errors().len(), answer.is_quiet()), (1, 0, false));
}

#[test]
fn lists_beyond_the_limits_are_not_judged() {
    let refused = |refusal, place| Verdict::Refused(Refused { refusal, place });
    let good = records("a=1$");
    let nested = |levels| records(&format!("a={}1{}$", "[".repeat(levels), "]".repeat(levels)));
    let lines = |count| records(&format!("{}$", "\n".repeat(count)));
    assert_eq!(fits(good.as_bytes(), 16_777_213), Verdict::Fits);
    assert_eq!(fits(good.as_bytes(), 16_777_214), refused(Refusal::Bytes, 2));
    assert_eq!(fits(&good.as_bytes()[1..], 0), refused(Refusal::PartialRecord, 3));
    assert_eq!(fits(nested(64).as_bytes(), 0), Verdict::Fits);
    assert_eq!(fits(nested(65).as_bytes(), 0), refused(Refusal::Depth, 66));
    assert_eq!(fits(lines(65_535).as_bytes(), 0), Verdict::Fits);
    assert_eq!(fits(lines(65_536).as_bytes(), 0), refused(Refusal::Records, 65_536));
    assert!(Verdict::Fits.is_yes() && !Verdict::DoesNotFit.is_yes() && !refused(Refusal::Depth, 66).is_yes());
}
