//! Token lists after the token grammar of document 01, and lists of that sort with a
//! few tokens damaged.

use crate::prng::Prng;
use crate::Entry;

/// A token's kind and length.
pub type Pair = (u16, u32);

/// A length that is right for the kind.
pub fn length(prng: &mut Prng, kind: u16) -> u32 {
    match kind {
        1..=7 => 1,
        16 => 0,
        _ if prng.one_in(20) => 1 + prng.below(1000) as u32,
        _ => 1 + prng.below(4) as u32,
    }
}

/// A list that the token grammar allows for this entry, of at most `most` tokens
/// (but at least one), with Eof last unless left out.
pub fn valid(prng: &mut Prng, entry: Entry, most: usize) -> Vec<Pair> {
    let mut pairs = match entry {
        Entry::Document => document(prng, most.saturating_sub(1)),
        Entry::SimpleKey => part(|out| name(prng, out)),
        Entry::Key => fitting(prng, most, key),
        Entry::Value => fitting(prng, most, |prng, out| value(prng, out, 5)),
    };
    if pairs.len() < most && !prng.one_in(8) {
        push(prng, &mut pairs, 16);
    }
    pairs
}

/// The same with one to five tokens damaged.
pub fn damaged(prng: &mut Prng, entry: Entry, most: usize) -> Vec<Pair> {
    let mut pairs = valid(prng, entry, most);
    for _ in 0..1 + prng.below(5) {
        damage(prng, &mut pairs, most);
    }
    pairs
}

/// Inserts, deletes, replaces or swaps at one place.
fn damage(prng: &mut Prng, pairs: &mut Vec<Pair>, most: usize) {
    let kind = 1 + prng.below(16) as u16;
    let new = (kind, length(prng, kind));
    let place = prng.below(pairs.len() + 1);
    let other = prng.below(pairs.len() + 1);
    match prng.below(4) {
        0 if pairs.len() < most => pairs.insert(place, new),
        1 if place < pairs.len() => drop(pairs.remove(place)),
        2 if place < pairs.len() && other < pairs.len() => pairs.swap(place, other),
        _ if place < pairs.len() => pairs[place] = new,
        _ => {}
    }
}

/// The tokens that `write` appends.
fn part(write: impl FnOnce(&mut Vec<Pair>)) -> Vec<Pair> {
    let mut out = Vec::new();
    write(&mut out);
    out
}

/// The first of a few tries that is short enough, else a lone Atom.
fn fitting(prng: &mut Prng, most: usize, write: impl Fn(&mut Prng, &mut Vec<Pair>)) -> Vec<Pair> {
    for _ in 0..4 {
        let out = part(|out| write(prng, out));
        if out.len() <= most {
            return out;
        }
    }
    vec![(15, 1)]
}

/// Lines, as many as fit, the last perhaps without its newline.
fn document(prng: &mut Prng, most: usize) -> Vec<Pair> {
    let wanted = prng.below(most + 1);
    let mut out = Vec::new();
    while out.len() < wanted {
        let line = part(|out| line(prng, out));
        if out.len() + line.len() > most {
            break;
        }
        out.extend(line);
    }
    if prng.one_in(3) && out.last().is_some_and(|last| last.0 == 10) {
        out.pop();
    }
    out
}

fn line(prng: &mut Prng, out: &mut Vec<Pair>) {
    space(prng, out);
    match prng.below(8) {
        0 => {}
        1 | 2 => header(prng, out),
        _ => pair(prng, out),
    }
    space(prng, out);
    if prng.one_in(5) {
        push(prng, out, 9);
    }
    push(prng, out, 10);
}

fn header(prng: &mut Prng, out: &mut Vec<Pair>) {
    let brackets = 1 + prng.below(2);
    (0..brackets).for_each(|_| push(prng, out, 4));
    space(prng, out);
    key(prng, out);
    space(prng, out);
    (0..brackets).for_each(|_| push(prng, out, 5));
}

fn pair(prng: &mut Prng, out: &mut Vec<Pair>) {
    inline_pair(prng, out, 4);
}

fn inline_pair(prng: &mut Prng, out: &mut Vec<Pair>, depth: usize) {
    key(prng, out);
    space(prng, out);
    push(prng, out, 2);
    space(prng, out);
    value(prng, out, depth);
}

fn key(prng: &mut Prng, out: &mut Vec<Pair>) {
    name(prng, out);
    while prng.one_in(4) {
        space(prng, out);
        push(prng, out, 1);
        space(prng, out);
        name(prng, out);
    }
}

fn name(prng: &mut Prng, out: &mut Vec<Pair>) {
    let kind = prng.pick(&[15, 15, 15, 15, 15, 15, 11, 12, 12, 13, 14]);
    push(prng, out, kind);
}

/// A value with at most `depth` levels of arrays and inline tables.
fn value(prng: &mut Prng, out: &mut Vec<Pair>, depth: usize) {
    match prng.below(6) {
        0 | 1 if depth > 0 => array(prng, out, depth - 1),
        2 if depth > 0 => inline_table(prng, out, depth - 1),
        3 => {
            let kind = prng.pick(&[11, 12, 13, 14]);
            push(prng, out, kind);
        }
        _ => scalar(prng, out),
    }
}

fn scalar(prng: &mut Prng, out: &mut Vec<Pair>) {
    let kind = prng.pick(&[15, 15, 15, 15, 15, 1]);
    push(prng, out, kind);
    while prng.one_in(4) {
        let kinds: &[u16] = prng.pick(&[&[1], &[15], &[1, 15], &[8, 15]]);
        kinds.iter().for_each(|kind| push(prng, out, *kind));
    }
}

fn array(prng: &mut Prng, out: &mut Vec<Pair>, depth: usize) {
    push(prng, out, 4);
    spread(prng, out);
    let values = prng.below(4);
    for place in 0..values {
        value(prng, out, depth);
        spread(prng, out);
        if place + 1 < values || prng.one_in(3) {
            push(prng, out, 3);
            spread(prng, out);
        }
    }
    push(prng, out, 5);
}

fn inline_table(prng: &mut Prng, out: &mut Vec<Pair>, depth: usize) {
    push(prng, out, 6);
    space(prng, out);
    let pairs = prng.below(4);
    for place in 0..pairs {
        inline_pair(prng, out, depth);
        space(prng, out);
        if place + 1 < pairs {
            push(prng, out, 3);
            space(prng, out);
        }
    }
    push(prng, out, 7);
}

/// Whitespace or nothing.
fn space(prng: &mut Prng, out: &mut Vec<Pair>) {
    if prng.one_in(4) {
        push(prng, out, 8);
    }
}

/// Whitespace, newlines and comments with newline, or nothing.
fn spread(prng: &mut Prng, out: &mut Vec<Pair>) {
    while prng.one_in(4) {
        let kinds: &[u16] = prng.pick(&[&[8], &[10], &[9, 10]]);
        kinds.iter().for_each(|kind| push(prng, out, *kind));
    }
}

/// One token of this kind.
fn push(prng: &mut Prng, out: &mut Vec<Pair>, kind: u16) {
    let length = length(prng, kind);
    out.push((kind, length));
}
