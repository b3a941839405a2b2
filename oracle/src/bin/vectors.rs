//! Makes what the replay program (crates/vectors) is run on, and what it must print:
//!
//!     vectors FOLDER      writes FOLDER/data/vectors.bin and FOLDER/stdout
//!
//! The file has lists in classes, each behind a note with the name of its class, with
//! what the oracle answers (document.rs compiled unchanged over stand-ins for the
//! files that are not here). It is the same each time. src/frame.rs says what is in it.

use std::fmt::Write as _;
use std::fs::File;
use std::path::Path;
use std::process::ExitCode;

use oracle::batch::Case;
use oracle::feeding;
use oracle::feeding::room;
use oracle::feeding::SPARE;
use oracle::generate;
use oracle::generate::Style;
use oracle::lines::SURPRISING;
use oracle::notation;
use oracle::numbers::ERROR_WORDS;
use oracle::prng::Prng;
use oracle::records;
use oracle::texts;
use oracle::texts::Text;
use oracle::walk;
use oracle::walk::ENTRIES;
use oracle::Entry;

/// The most bytes and words that the replay program has room for.
const MOST_BYTES: usize = 4096;
const MOST_EVENT_WORDS: usize = 4096;
const MOST_ERROR_WORDS: usize = 512 * ERROR_WORDS;
/// Rooms for events and errors, in turn: see [`room`].
const ROOMS: [(usize, usize); 8] = [
    (3, 3),
    (2, 2),
    (3, 2),
    (1, 3),
    (2, 1),
    (3, 3),
    (0, 3),
    (2, 0),
];
/// Bases that have something to show, some too high.
const BASES: [u32; 9] = [
    1,
    255,
    256,
    65_535,
    65_536,
    16_777_215,
    16_777_216,
    16_777_217,
    u32::MAX,
];
/// Name, style, number and greatest length of the lists of each random class.
const DRAWN: [(&str, Style, usize, usize); 4] = [
    ("random lists", Style::Random, 900, 16),
    ("lists after the grammar", Style::Valid, 150, 20),
    ("damaged lists", Style::Damaged, 850, 20),
    ("wrong records", Style::Malformed, 350, 9),
];
/// Styles of the long lists, and how many bytes they have at least.
const LONG: [Style; 5] = [
    Style::Valid,
    Style::Damaged,
    Style::Damaged,
    Style::Random,
    Style::Random,
];
const LONG_BYTES: usize = 6 * 300;

fn main() -> ExitCode {
    let words: Vec<String> = std::env::args().skip(1).collect();
    let done = match &words[..] {
        [folder] => walk::on_large_stack(|| make(Path::new(folder))),
        _ => Err("usage: vectors FOLDER".to_string()),
    };
    match done {
        Ok(()) => ExitCode::SUCCESS,
        Err(text) => {
            eprintln!("vectors: {text}");
            ExitCode::from(2)
        }
    }
}

fn make(folder: &Path) -> Result<(), String> {
    let file = File::create(folder.join("data/vectors.bin")).map_err(|e| e.to_string())?;
    let mut maker = Maker {
        feed: feeding::Feed::new(file, None),
        lines: String::new(),
    };
    maker.class("the fourteen texts", texts)?;
    maker.class("texts at other bases", based)?;
    maker.class("lines that may surprise", surprising)?;
    maker.class("every list of up to two tokens", short)?;
    for (name, style, count, most) in DRAWN {
        maker.class(name, |maker| drawn(maker, style, count, most))?;
    }
    maker.class("long lists", long)?;
    maker.class("deep lists", deep)?;
    let all = maker.feed.cases();
    maker.feed.end()?;
    let _ = writeln!(maker.lines, "all: {all} comparisons, 0 differ");
    std::fs::write(folder.join("stdout"), maker.lines).map_err(|e| e.to_string())
}

/// The file, and the lines that must be printed.
struct Maker {
    feed: feeding::Feed<File>,
    lines: String,
}

impl Maker {
    fn class(
        &mut self,
        name: &str,
        lists: impl FnOnce(&mut Self) -> Result<(), String>,
    ) -> Result<(), String> {
        let before = self.feed.cases();
        self.feed.note(name);
        lists(self)?;
        let lists = self.feed.cases() - before;
        let _ = writeln!(self.lines, "{name}: {lists} comparisons, 0 differ");
        Ok(())
    }

    /// A list in these rooms. It is refused if the replay program has no room for it.
    fn put(&mut self, case: Case, rooms: &[(usize, usize)]) -> Result<(), String> {
        let mut fits = case.bytes.len() <= MOST_BYTES;
        self.feed.put_in_rooms(case, |events, errors| {
            fits &= events + SPARE.0 <= MOST_EVENT_WORDS && errors + SPARE.1 <= MOST_ERROR_WORDS;
            let sized =
                |&(first, second)| (room(first, events, SPARE.0), room(second, errors, SPARE.1));
            rooms.iter().map(sized).collect::<Vec<_>>()
        })?;
        fits.then_some(()).ok_or("a list is too long".to_string())
    }
}

/// The fourteen texts of document 01, each as records.
fn fourteen() -> Vec<Vec<u8>> {
    let mut eof = true;
    let mut lists = Vec::new();
    for line in include_str!("../../texts/texts.txt").lines() {
        if let Some(text) = line.strip_prefix("notation ") {
            lists.push(records::from_pairs(&notation::pairs(text, eof)));
        } else if line.starts_with("text ") {
            eof = !line.ends_with("no-eof");
        }
    }
    assert_eq!(lists.len(), 14);
    lists
}

/// The texts at each entry, in four rooms: none, one word short, exact, with words to spare.
fn texts(maker: &mut Maker) -> Result<(), String> {
    for bytes in fourteen() {
        in_four_rooms(maker, 0, &bytes)?;
    }
    Ok(())
}

fn in_four_rooms(maker: &mut Maker, base: u32, bytes: &[u8]) -> Result<(), String> {
    for (_, entry) in ENTRIES {
        let rooms = [(0, 0), (1, 1), (2, 2), (3, 3)];
        maker.put(Case::at(entry, base, bytes.to_vec()), &rooms)?;
    }
    Ok(())
}

/// The texts of [`SURPRISING`] as the lexer reads them, nothing behind a byte order mark, and
/// the shortest list whose lines fall.
fn surprising(maker: &mut Maker) -> Result<(), String> {
    for (text, _) in SURPRISING {
        let Text::Tokens { base, records, .. } = texts::judge(text.as_bytes())? else {
            return Err(format!("{text:?} is refused"));
        };
        in_four_rooms(maker, base, &records)?;
    }
    in_four_rooms(maker, 3, &[])?;
    in_four_rooms(maker, 0, &listed(&[6, 10, 10]))
}

fn based(maker: &mut Maker) -> Result<(), String> {
    for base in BASES {
        for bytes in fourteen() {
            maker.put(Case::at(Entry::Document, base, bytes), &ROOMS[..1])?;
        }
    }
    Ok(())
}

/// Every list of up to two tokens, at each entry: with words to spare, and in another room.
fn short(maker: &mut Maker) -> Result<(), String> {
    for length in 0..=2 {
        for list in 0..16u64.pow(length) {
            let bytes = records::from_pairs(&feeding::short_list(length, list));
            for (_, entry) in ENTRIES {
                let case = Case::at(entry, 3 * (list % 2) as u32, bytes.clone());
                maker.feed.put_in_rooms(case, |events, errors| {
                    feeding::ample_and_another(list / 2, events, errors)
                })?;
            }
        }
    }
    Ok(())
}

/// So many lists of a style, at entries that are drawn.
fn drawn(maker: &mut Maker, style: Style, count: usize, most: usize) -> Result<(), String> {
    let mut prng = Prng::new(count as u64);
    for turn in 0..count {
        let case = generate::make(&mut prng, style, None, most).case;
        maker.put(case, &[ROOMS[turn % 8]])?;
    }
    Ok(())
}

/// Lists of 300 to 600 records, each at all four entries.
fn long(maker: &mut Maker) -> Result<(), String> {
    let mut prng = Prng::new(1);
    for style in LONG {
        let mut made = || generate::make(&mut prng, style, Some(Entry::Document), 600).case;
        let mut case = made();
        while case.bytes.len() < LONG_BYTES {
            case = made();
        }
        for (_, entry) in ENTRIES {
            maker.put(Case::at(entry, case.base, case.bytes.clone()), &ROOMS[..1])?;
        }
    }
    Ok(())
}

/// Arrays, inline tables and both in turn, about as deep as is allowed, closed or not: behind
/// `x=` in a document, and as a value.
fn deep(maker: &mut Maker) -> Result<(), String> {
    for depth in [63, 64, 65] {
        for tables_of_three in [0, 1, 3] {
            for closed in [true, false] {
                let value = nested(depth, tables_of_three, closed);
                let pair: Vec<u16> = [15, 2].iter().chain(&value).copied().collect();
                for (entry, kinds) in [(Entry::Document, pair), (Entry::Value, value)] {
                    maker.put(Case::at(entry, 7, listed(&kinds)), &ROOMS[..1])?;
                }
            }
        }
    }
    Ok(())
}

/// The kinds of nested openings, of each three the first so many inline tables with a key, and
/// the others arrays; then a value, and the closings.
fn nested(depth: usize, tables_of_three: usize, closed: bool) -> Vec<u16> {
    let is_table = |level: usize| level % 3 < tables_of_three;
    let mut kinds = Vec::new();
    for level in 0..depth {
        kinds.extend_from_slice(if is_table(level) { &[6, 15, 2] } else { &[4] });
    }
    kinds.push(15);
    if closed {
        kinds.extend(
            (0..depth)
                .rev()
                .map(|level| if is_table(level) { 7 } else { 5 }),
        );
    }
    kinds.push(16);
    kinds
}

/// Records of these kinds, as short as they may be.
fn listed(kinds: &[u16]) -> Vec<u8> {
    let pairs = kinds
        .iter()
        .map(|kind| (*kind, feeding::right_length(*kind, 1)));
    records::from_pairs(&pairs.collect::<Vec<_>>())
}
