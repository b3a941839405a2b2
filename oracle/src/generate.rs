//! Random cases in the form that batch mode reads.

use std::fmt::Write as _;

use crate::batch::Case;
use crate::modes;
use crate::numbers::ERROR_WORDS;
use crate::prng::Prng;
use crate::records::from_pairs;
use crate::tomlish;
use crate::tomlish::length;
use crate::tomlish::Pair;
use crate::walk::ENTRIES;
use crate::Entry;

/// How a case's list is made.
#[derive(Copy, Clone, PartialEq, Eq, Debug)]
pub enum Style {
    /// Kinds drawn by weight, without regard to grammar.
    Random,
    /// After the token grammar, with one to five tokens damaged.
    Damaged,
    /// After the token grammar.
    Valid,
    /// As random, with a record or the byte length made wrong.
    Malformed,
}

/// Weights of the kinds 1 to 16, one line for each flavour of random list.
const FLAVOURS: [[usize; 16]; 6] = [
    [1, 1, 1, 1, 1, 1, 1, 1, 1, 1, 1, 1, 1, 1, 1, 1],
    [4, 8, 5, 4, 4, 3, 3, 8, 2, 6, 1, 2, 1, 1, 12, 1],
    [1, 2, 5, 9, 6, 3, 3, 4, 2, 3, 0, 1, 0, 0, 8, 0],
    [3, 9, 6, 2, 2, 6, 5, 4, 1, 1, 1, 1, 1, 1, 12, 0],
    [12, 4, 1, 4, 4, 1, 1, 8, 1, 3, 1, 2, 1, 1, 10, 1],
    [1, 3, 1, 2, 2, 1, 1, 6, 12, 8, 1, 1, 0, 0, 6, 1],
];

/// A case, with its tokens unless it is malformed.
pub struct Made {
    pub case: Case,
    pairs: Option<Vec<Pair>>,
}

/// One case; without an entry, one is drawn.
pub fn make(prng: &mut Prng, style: Style, entry: Option<Entry>, most: usize) -> Made {
    let entry = entry.unwrap_or_else(|| prng.pick(&ENTRIES).1);
    let pairs = match style {
        Style::Random | Style::Malformed => random(prng, most),
        Style::Damaged => tomlish::damaged(prng, entry, most),
        Style::Valid => tomlish::valid(prng, entry, most),
    };
    let tight = style != Style::Valid;
    let event_words = room(prng, 16 * (pairs.len() + 2), tight);
    let error_words = room(prng, 3 * ERROR_WORDS * (pairs.len() + 2), tight);
    let base = if style == Style::Valid {
        0
    } else {
        base(prng, &pairs)
    };
    let (bytes, pairs) = if style == Style::Malformed {
        (malformed(prng, &pairs), None)
    } else {
        (from_pairs(&pairs), Some(pairs))
    };
    let case = Case {
        mode: modes::CRATE,
        entry,
        base,
        event_words,
        error_words,
        bytes,
    };
    Made { case, pairs }
}

/// One case as a line of batch input; without an entry, one is drawn.
pub fn case(prng: &mut Prng, style: Style, entry: Option<Entry>, most: usize) -> String {
    let Made { case, pairs } = make(prng, style, entry, most);
    let rooms = format!("{} {}", case.event_words, case.error_words);
    let mut line = format!("{} {} {rooms}", case.entry.name(), case.base);
    if let Some(pairs) = pairs {
        pairs.iter().for_each(|(kind, length)| {
            let _ = write!(line, " {kind}:{length}");
        });
    } else {
        line.push_str(" x:");
        for byte in case.bytes {
            let _ = write!(line, "{byte:02x}");
        }
    }
    line
}

/// A list of at most `most` tokens drawn by weight, at times with a run of opening
/// brackets near the limit of levels, and with Eof last in half the cases.
fn random(prng: &mut Prng, most: usize) -> Vec<Pair> {
    let weights = prng.pick(&FLAVOURS);
    let count = prng.below(most + 1);
    let mut kinds = Vec::new();
    if count > 140 && prng.one_in(3) {
        deep(prng, &mut kinds);
    }
    while kinds.len() < count {
        kinds.push(1 + prng.weighted(&weights) as u16);
    }
    if prng.one_in(2) {
        kinds.truncate(most.saturating_sub(1));
        kinds.push(16);
    }
    kinds
        .into_iter()
        .map(|kind| (kind, length(prng, kind)))
        .collect()
}

/// `a=` and 60 to 66 openings, arrays and inline tables mixed or arrays alone.
fn deep(prng: &mut Prng, kinds: &mut Vec<u16>) {
    kinds.extend([15, 2]);
    let mixed = prng.one_in(2);
    for _ in 0..60 + prng.below(7) {
        if mixed && kinds.len() < 120 && prng.one_in(4) {
            kinds.extend([6, 15, 2]);
        } else {
            kinds.push(4);
        }
    }
}

/// Words of room: mostly `ample`, at times few.
fn room(prng: &mut Prng, ample: usize, tight: bool) -> usize {
    if tight && prng.one_in(8) {
        prng.below(ample)
    } else {
        ample
    }
}

/// Mostly 0, at times another base, some near or above the highest place.
fn base(prng: &mut Prng, pairs: &[Pair]) -> u32 {
    let total: u32 = pairs.iter().map(|pair| pair.1).sum();
    match prng.below(16) {
        0..=7 => 0,
        8..=11 => 1 + prng.below(100) as u32,
        12 => prng.below(16_000_000) as u32,
        13 => 16_777_216 - total.min(16_777_216),
        14 => 16_777_217 - prng.below(total as usize + 2) as u32,
        _ => 1_000_000,
    }
}

/// The list with a wrong kind, a wrong length or a wrong number of bytes.
fn malformed(prng: &mut Prng, pairs: &[Pair]) -> Vec<u8> {
    let mut pairs = pairs.to_vec();
    for _ in 0..1 + prng.below(2) {
        let place = prng.below(pairs.len() + 1);
        let Some(pair) = pairs.get_mut(place) else {
            break;
        };
        match prng.below(4) {
            0 => pair.0 = prng.pick(&[0, 17, 256, 271, 65_535]),
            1 => pair.1 = u32::from(pair.1 == 0),
            2 => pair.1 = prng.pick(&[0, 2, 256, 16_777_217, 2_147_483_649, u32::MAX]),
            _ => {}
        }
    }
    let mut bytes = from_pairs(&pairs);
    if prng.one_in(3) {
        bytes.truncate(prng.below(bytes.len() + 1));
    }
    bytes
}
