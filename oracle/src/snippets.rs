//! Random texts: fragments strung together, lines of job files, and pieces of real
//! files, most of them damaged, some with byte order marks or with bytes that are no
//! UTF-8.

use crate::prng::Prng;

/// What a text may be strung together from.
const FRAGMENTS: [&str; 74] = [
    ".",
    "=",
    ",",
    "[",
    "]",
    "{",
    "}",
    " ",
    "\t",
    "\n",
    "\r\n",
    "\r",
    "#",
    "'",
    "\"",
    "\\",
    "''",
    "\"\"",
    "'''",
    "\"\"\"",
    "''''",
    "\"\"\"\"",
    "'''''",
    "\"\"\"\"\"",
    "\\\"",
    "\\\\",
    "\\n",
    "\\u00e9",
    "a",
    "b-c",
    "_1",
    "1",
    "-0.5",
    "1e5",
    "0x1f",
    "true",
    "nan",
    "+inf",
    "1979-05-27",
    "07:32:00",
    "T",
    "Z",
    "é",
    "größe",
    "日本",
    "🦫",
    "\u{feff}",
    "\u{a0}",
    "\u{85}",
    "\u{2028}",
    "\0",
    "\u{7f}",
    "\u{b}",
    "\u{c}",
    "'lit'",
    "\"bas\"",
    "'''m\nl'''",
    "\"\"\"m\\\n b\"\"\"",
    "# note\n",
    "# größer\r\n",
    "a = 1\n",
    "[t]\n",
    "[[t.u]]\n",
    "x = [1, 2]\n",
    "y = {a = 1}\n",
    "k = \"v\"\n",
    "a.b = 'c'\n",
    " = ",
    ", ",
    "[[",
    "]]",
    "{}",
    "@",
    "a'b",
];

/// Lines of job files as people write them.
const LINES: [&str; 24] = [
    "# ledger of the main office\n",
    "[agent]\n",
    "[[job]] # nightly\n",
    "[ledger.\"main office\"]\n",
    "name = \"ledger-main\"\n",
    "enabled = true\n",
    "schedule = '0 3 * * *'\r\n",
    "source = { host = \"ledger.example\", port = 5432, path = '/srv/ledger' }\n",
    "since = 2025-03-30 03:00:00\n",
    "at = 07:32:00.5\n",
    "retain.daily = 7\n",
    "retain . \"weekly\" = 4 # weeks\n",
    "ratio = 0.75\n",
    "limit = 1_000_000\n",
    "exclude = [\"*.tmp\", \"cache/**\", 'lost+found',]\n",
    "targets = [\n    \"disk:/backup\",  # schnell\n    \"s3://store/backup\",\n]\n",
    "matrix = [[1, 2], [3, 4, [5]], []]\n",
    "note = \"\"\"\nQuoted \\\"twice\\\" and \\\n    folded.\"\"\"\n",
    "query = '''\nselect * from ledger\n where name = 'main'\n'''\n",
    "größe = 'ß'\n",
    "empty = {}\n",
    "points = [ { x = 1, y = 2 }, { x = 3, y = 4 } ]\n",
    "\n",
    "   \t\n",
];

/// Sequences that are no UTF-8, of every kind in Unicode's table 3-7: bytes that never
/// lead, that lead and are not followed, overlong forms, surrogates, too high ones.
const ILL_FORMED: [&[u8]; 20] = [
    b"\x80",
    b"\xbf",
    b"\xc0\x80",
    b"\xc1\xbf",
    b"\xc3",
    b"\xc3A",
    b"\xe0\x9f\xbf",
    b"\xe0\xa0",
    b"\xe2\x82A",
    b"\xed\xa0\x80",
    b"\xed\xbf\xbf",
    b"\xef\xbb",
    b"\xef",
    b"\xf0\x8f\xbf\xbf",
    b"\xf0\x9f\xa6",
    b"\xf0\x9f",
    b"\xf4\x90\x80\x80",
    b"\xf5\x80\x80\x80",
    b"\xf8\x88\x80\x80\x80",
    b"\xff\xfe",
];

/// Bytes that mean something to the lexer, for damage.
const BYTES: &[u8] = b".=,[]{} \t#\r\n'\"\\a1-\0\x7f";

/// The most bytes of a piece of a file.
const PIECE: usize = 160;

/// A random text; some are pieces of these files.
pub fn text(prng: &mut Prng, files: &[Vec<u8>]) -> Vec<u8> {
    let mut text = Vec::new();
    if prng.one_in(12) {
        text.extend_from_slice("\u{feff}".as_bytes());
    }
    let damages = match prng.below(16) {
        0..=6 => {
            for _ in 0..prng.below(14) {
                text.extend_from_slice(prng.pick(&FRAGMENTS).as_bytes());
            }
            0
        }
        7..=11 => {
            for _ in 0..1 + prng.below(5) {
                text.extend_from_slice(prng.pick(&LINES).as_bytes());
            }
            prng.below(4)
        }
        12..=14 => {
            text.extend_from_slice(piece(prng, files));
            prng.below(4)
        }
        _ if prng.one_in(20) => {
            text.extend_from_slice(&files[prng.below(files.len())]);
            prng.below(4)
        }
        _ => {
            for _ in 0..prng.below(10) {
                text.push(prng.pick(BYTES));
            }
            0
        }
    };
    (0..damages).for_each(|_| damage(prng, &mut text));
    if prng.one_in(16) {
        let place = prng.below(text.len() + 1);
        let bytes = prng.pick(&ILL_FORMED);
        text.splice(place..place, bytes.iter().copied());
    }
    text
}

/// Some bytes of one of the files, from anywhere, so that they may begin or end within
/// a string or a character.
fn piece<'f>(prng: &mut Prng, files: &'f [Vec<u8>]) -> &'f [u8] {
    let file = &files[prng.below(files.len())];
    let start = prng.below(file.len() + 1);
    let bytes = prng.below(PIECE + 1).min(file.len() - start);
    &file[start..start + bytes]
}

/// Changes one thing: a few bytes taken out, put in twice, replaced, or a fragment put in.
fn damage(prng: &mut Prng, text: &mut Vec<u8>) {
    let start = prng.below(text.len() + 1);
    let end = (start + prng.below(5)).min(text.len());
    match prng.below(5) {
        0 => drop(text.drain(start..end)),
        1 => text.extend_from_within(start..end),
        2 => {
            let copy = text[start..end].to_vec();
            text.splice(start..start, copy);
        }
        3 if start < text.len() => text[start] = prng.pick(BYTES),
        _ => {
            let fragment = prng.pick(&FRAGMENTS);
            text.splice(start..start, fragment.bytes());
        }
    }
}
