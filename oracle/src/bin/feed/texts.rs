//! Texts for the feeder: every short one over small alphabets, UTF-8 well formed and
//! ill formed, the files of a folder, random ones, and texts at the limits.

use std::path::PathBuf;

use oracle::batch::number;
use oracle::modes::CRATE;
use oracle::prng::Prng;
use oracle::records;
use oracle::snippets;
use oracle::texts;

use crate::rooms::all_rooms;
use crate::rooms::ample;
use crate::rooms::less;
use crate::rooms::some;
use crate::Feed;
use crate::NOTED;

/// What the short texts are made of: what all of them begin with, the symbols that
/// follow, and how many of them. The first set reaches each branch of lexer/mod.rs.
const ALPHABETS: [(&str, &[&str], u32); 10] = [
    ("", &["=", " ", "#", "\r", "\n", "'", "\"", "\\", "a"], 6),
    ("", &ALL, 4),
    ("\u{feff}", &ALL, 3),
    ("a=", &["'", "\"", "\\", "\n", "a"], 6),
    ("a='''", &["'", "\n", "a"], 7),
    ("a=\"\"\"", &["\"", "\\", "a"], 7),
    ("x={", &["a", "=", ",", "[", "]", "{", "}", "\n", "'"], 4),
    ("x=[", &["a", "=", ",", "[", "]", "{", "}", "\n", "'"], 4),
    // a comma before the brace, which crate mode finds and brace mode does not
    (",\nx={", &["a", "=", ",", "[", "]", "{", "}", "\n"], 5),
    ("", &ODD, 3),
];
/// One symbol or more of each token, the rest of an Atom, and a character of two bytes.
const ALL: [&str; 17] = [
    "a", ".", "=", ",", "[", "]", "{", "}", " ", "\t", "#", "\n", "\r", "'", "\"", "\\", "é",
];
/// Controls, blanks of other scripts, and byte order marks, among some others.
const ODD: [&str; 16] = [
    "a",
    "=",
    "#",
    "\n",
    "\r",
    "\0",
    "\u{7f}",
    "\u{b}",
    "\u{c}",
    "\u{a0}",
    "\u{feff}",
    "\u{2028}",
    "\u{85}",
    "\u{1f600}",
    "'",
    "\"",
];
/// Bytes at the edges of the rows of Unicode's table 3-7: those that lead, and those
/// that follow.
const LEADS: [u8; 26] = [
    0x7f, 0x80, 0x8f, 0x90, 0x9f, 0xa0, 0xbf, 0xc0, 0xc1, 0xc2, 0xc3, 0xdf, 0xe0, 0xe1, 0xec, 0xed,
    0xee, 0xef, 0xf0, 0xf1, 0xf3, 0xf4, 0xf5, 0xf7, 0xf8, 0xff,
];
const FOLLOWS: [u8; 11] = [
    0x0a, 0x7f, 0x80, 0x8f, 0x90, 0x9f, 0xa0, 0xbb, 0xbf, 0xc0, 0xff,
];
/// Where such bytes stand: before and behind them.
const AROUND: [(&str, &str); 6] = [
    ("", ""),
    ("a='", "'"),
    ("#é", "\n"),
    ("\u{feff}", ""),
    ("x = [ 1, 2 ] # sixteen bytes and more", "é"),
    ("\"\"\"", "\"\"\""),
];
/// A text of at most so many records is now and then tried in all rooms.
const FEW_RECORDS: usize = 14;

/// One of several parts into which the texts are dealt out.
#[derive(Copy, Clone)]
pub struct Part {
    number: u64,
    of: u64,
}

impl Part {
    pub const WHOLE: Self = Self { number: 1, of: 1 };

    /// The part in a word `K/N`.
    pub fn of(word: &str) -> Result<Self, String> {
        let (number_word, of_word) = word.split_once('/').ok_or("a part is K/N")?;
        let (number, of) = (number(number_word)?, number(of_word)?);
        if number == 0 || number > of {
            return Err(format!("there is no part {word}"));
        }
        Ok(Self { number, of })
    }

    fn has(self, turn: u64) -> bool {
        turn % self.of == self.number - 1
    }
}

/// UTF-8; every short text, the shortest in all rooms; the files; the limits.
pub fn all(feed: &mut Feed, more: u32, folder: &str, part: Part) -> Result<(), String> {
    utf8(feed, part)?;
    for (head, symbols, longest) in ALPHABETS {
        let longest = longest + more;
        for length in 0..=longest {
            short_texts(feed, head, symbols, length, part)?;
        }
        feed.note(&format!(
            "every text of {head:?} and up to {longest} of {symbols:?}"
        ));
    }
    for (turn, file) in files(folder)?.into_iter().enumerate() {
        if part.has(turn as u64) {
            let mut prng = Prng::new(turn as u64);
            feed.put_text(CRATE, &file, |needs| {
                [5, 0, 1, 2, 3, 4].map(|which| some(&mut prng, needs, which))
            })?;
        }
    }
    feed.note("files");
    if part.has(0) {
        at_the_limits(feed)?;
    }
    Ok(())
}

/// Every text of these symbols and this length behind the head.
fn short_texts(
    feed: &mut Feed,
    head: &str,
    symbols: &[&str],
    length: u32,
    part: Part,
) -> Result<(), String> {
    let many = symbols.len() as u64;
    for turn in 0..many.pow(length) {
        if !part.has(turn) {
            continue;
        }
        let places = (0..length).map(|at| (turn / many.pow(at) % many) as usize);
        let text = head.to_string() + &places.map(|place| symbols[place]).collect::<String>();
        if length <= 2 {
            feed.put_text(CRATE, text.as_bytes(), |needs| all_rooms(&needs))?;
        } else {
            let mut prng = Prng::new(turn ^ u64::from(length) << 32);
            let which = prng.below(8);
            feed.put_text(CRATE, text.as_bytes(), |needs| {
                [some(&mut prng, needs, which)]
            })?;
        }
    }
    Ok(())
}

/// Each byte that leads with up to three that follow, in turn between other things.
fn utf8(feed: &mut Feed, part: Part) -> Result<(), String> {
    let many = FOLLOWS.len();
    let mut turn = 0;
    for lead in LEADS {
        for length in 0..=3 {
            for follow in 0..many.pow(length) {
                turn += 1;
                if !part.has(turn) {
                    continue;
                }
                let (before, behind) = AROUND[(turn % 6) as usize];
                let mut text = before.as_bytes().to_vec();
                text.push(lead);
                text.extend((0..length).map(|at| FOLLOWS[follow / many.pow(at) % many]));
                text.extend_from_slice(behind.as_bytes());
                feed.put_text(CRATE, &text, |needs| [ample(&needs)])?;
            }
        }
    }
    feed.note("bytes at the edges of the table of UTF-8");
    Ok(())
}

/// So many random texts: the one of a turn is made from the seed and the turn alone.
pub fn random(
    feed: &mut Feed,
    count: u64,
    seed: u64,
    folder: &str,
    part: Part,
) -> Result<(), String> {
    let files = files(folder)?;
    let seed = Prng::new(seed).bits();
    for turn in 0..count {
        if part.has(turn) {
            let mut prng = Prng::new(seed ^ turn.wrapping_mul(0xd6e8_feb8_6659_fd93));
            let text = snippets::text(&mut prng, &files);
            let (every, which) = (prng.one_in(100), prng.below(10));
            feed.put_text(CRATE, &text, |needs| {
                if every && needs.record_bytes <= 6 * FEW_RECORDS {
                    all_rooms(&needs)
                } else {
                    vec![some(&mut prng, needs, which)]
                }
            })?;
        }
        if (turn + 1) % NOTED == 0 {
            feed.note(&format!("random texts, {} of {count}", turn + 1));
        }
    }
    feed.note("random texts");
    Ok(())
}

/// The TOML files of a folder and of those in it, by name.
pub fn files(folder: &str) -> Result<Vec<Vec<u8>>, String> {
    let mut found: Vec<PathBuf> = Vec::new();
    let mut folders = vec![PathBuf::from(folder)];
    while let Some(folder) = folders.pop() {
        let entries =
            std::fs::read_dir(&folder).map_err(|e| format!("{}: {e}", folder.display()))?;
        for entry in entries {
            let path = entry.map_err(|e| e.to_string())?.path();
            if path.is_dir() {
                folders.push(path);
            } else if path.extension().is_some_and(|name| name == "toml") {
                found.push(path);
            }
        }
    }
    found.sort();
    if found.is_empty() {
        return Err(format!("no TOML files in {folder}"));
    }
    let read = |path: &PathBuf| std::fs::read(path).map_err(|e| format!("{}: {e}", path.display()));
    found.iter().map(read).collect()
}

/// The most bytes and one more, the most records and one more, the most levels and one
/// more, and which refusal comes first.
fn at_the_limits(feed: &mut Feed) -> Result<(), String> {
    let most = texts::MAX_BYTES;
    for (bytes, last) in [
        (most, b'\n'),
        (most + 1, b'\n'),
        (most, 0xff),
        (most + 1, 0xff),
    ] {
        let mut text = vec![b'#'; bytes - 1];
        text.push(last);
        feed.put_text(CRATE, &text, |needs| [ample(&needs)])?;
    }
    let most = records::MAX_RECORDS;
    for many in [most - 2, most - 1, most] {
        for symbol in ["\n", "=", "a.", " ,", "'' "] {
            let mut text = symbol.repeat(many);
            text.truncate(many);
            let rooms = |needs| [ample(&needs), less(ample(&needs), 0, 12), less(needs, 1, 0)];
            feed.put_text(CRATE, text.as_bytes(), rooms)?;
        }
    }
    for levels in [63, 64, 65] {
        for (open, close) in [("[", "]"), ("{a=", "}")] {
            let text = format!("x={}1{}", open.repeat(levels), close.repeat(levels));
            let both = format!(
                "x=[{}1{}]",
                open.repeat(levels - 1),
                close.repeat(levels - 1)
            );
            for text in [text, both] {
                feed.put_text(CRATE, text.as_bytes(), |needs| {
                    let no_event = less(ample(&needs), 0, usize::MAX);
                    [ample(&needs), needs, no_event, less(needs, 6, 0)]
                })?;
            }
        }
    }
    feed.note("texts at the limits");
    Ok(())
}
