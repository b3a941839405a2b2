//! The index of headers, for the feeder: of job files, of files, at the limits, and of
//! random runs, with right and wrong answers, in rooms around what is needed; and what is
//! read back from entries, whole and damaged.

use oracle::generate;
use oracle::generate::Style;
use oracle::headers;
use oracle::headers::ENTRY;
use oracle::headers::MOST_EVENTS;
use oracle::judged_compared;
use oracle::prng::Prng;
use oracle::records;
use oracle::snippets;
use oracle::texts;
use oracle::texts::Text;
use oracle::walk::Lists;
use oracle::Answer;
use oracle::Entry;
use oracle::Judged;

use crate::texts::files;
use crate::Feed;

/// Headers of the job files.
const JOBS: [usize; 6] = [0, 1, 2, 300, 301, 5000];
/// The kinds of event that arbitrary words have, most of them those that count.
const KINDS: [u32; 14] = [1, 1, 2, 2, 3, 3, 4, 4, 5, 5, 6, 16, 0, u32::MAX];

pub fn all(feed: &mut Feed, count: u64, seed: u64, folder: &str) -> Result<(), String> {
    let files = files(folder)?;
    for many in JOBS {
        put_run(feed, &of_text(jobs(many).as_bytes())?, around)?;
    }
    feed.note("indexes of job files of 0 to 5,000 headers");
    for file in &files {
        let lists = of_text(file)?;
        put_run(feed, &lists, around)?;
        put_wrong(feed, &lists)?;
    }
    at_the_limits(feed)?;
    let mut prng = Prng::new(seed ^ 0x1d_e8);
    for turn in 0..count {
        let (answer, words) = run(&mut prng, turn, &files)?;
        feed.put_index(&answer, &words, around)?;
        if turn % 32 < 4 {
            let lists = of_text(&snippets::text(&mut prng, &files))?;
            put_wrong(feed, &lists)?;
        }
        for _ in 0..4 {
            let (bytes, at) = entries(&mut prng);
            feed.put_found(&bytes, at)?;
        }
    }
    feed.note("random indexes and entries");
    Ok(())
}

/// A job file with so many headers, every third of an array table.
fn jobs(many: usize) -> String {
    let mut text = String::from("# jobs\nname = 'store-7'\n");
    for number in 0..many {
        text += &match number % 3 {
            0 => format!("[jobs.n{number}]\nledger = 1\n"),
            1 => format!("[[hosts]]\nport = {number}\n"),
            _ => format!("[jobs.'n{number}'.copies]\n\n\n"),
        };
    }
    text
}

/// What a text gives; nothing if it is refused.
fn of_text(text: &[u8]) -> Result<Lists, String> {
    Ok(match texts::judge(text)? {
        Text::Tokens {
            judged: Judged::Walked(lists, None),
            ..
        } => lists,
        _ => Lists::default(),
    })
}

/// The answer of a run with room for all.
fn answer(lists: &Lists) -> Answer {
    Answer {
        events: lists.events.len(),
        errors: lists.errors.len(),
        ..Answer::default()
    }
}

/// Rooms of no byte, one, and all that are near what is needed.
fn around(bytes: usize) -> Vec<usize> {
    let near = bytes.saturating_sub(ENTRY + 1)..=bytes + ENTRY + 1;
    [0, 1, bytes / 2].into_iter().chain(near).collect()
}

/// Adds the index of a run. Where it is quiet its headers must also be what the texts of
/// document 02 come to: as many parts as separators and one more, and each table right
/// behind the one before it.
fn put_run(feed: &mut Feed, lists: &Lists, rooms: fn(usize) -> Vec<usize>) -> Result<(), String> {
    let words = lists.events.concat();
    if let Some(kinds) = headers::quiet_kinds(&answer(lists), &words) {
        let mut end = None;
        for header in headers::headers(&kinds) {
            let behind = header.place + header.events;
            let key = kinds[header.place..behind]
                .iter()
                .take_while(|kind| ![2, 4].contains(*kind));
            let parts = 1 + key.filter(|kind| **kind == 6).count();
            if parts != header.parts || end.is_some_and(|end| end != header.place) {
                return Err(format!("a header that cannot be: {header:?}"));
            }
            end = Some(behind);
        }
        if end.is_some_and(|end| end != kinds.len()) {
            return Err("the last table does not go to the end".to_string());
        }
    }
    feed.put_index(&answer(lists), &words, rooms)
}

/// Answers that are not those of the run, and buffers that are longer or shorter.
fn put_wrong(feed: &mut Feed, lists: &Lists) -> Result<(), String> {
    let (right, words) = (answer(lists), lists.events.concat());
    let rooms = |bytes: usize| [bytes.saturating_sub(1), bytes + 40];
    let (n, large) = (right.events, 1 << 62);
    for events in [
        0,
        n / 2,
        n.saturating_sub(1),
        n + 1,
        n + 2,
        MOST_EVENTS + 1,
        large,
        large + n,
        usize::MAX,
    ] {
        feed.put_index(&Answer { events, ..right }, &words, rooms)?;
    }
    for refusal in (1..=14).chain([256, u32::MAX]) {
        feed.put_index(&Answer { refusal, ..right }, &words, rooms)?;
    }
    for number in [1, large, usize::MAX] {
        feed.put_index(
            &Answer {
                errors: number,
                ..right
            },
            &words,
            rooms,
        )?;
        feed.put_index(
            &Answer {
                place: number,
                ..right
            },
            &words,
            rooms,
        )?;
    }
    for cut in 1..=5.min(words.len()) {
        feed.put_index(&right, &words[..words.len() - cut], rooms)?;
    }
    // one event more of which the buffer has one word, two, the start too, and all
    let longer = [words.as_slice(), &[1, 0, 5, 6]].concat();
    for more in 1..=4 {
        let some = &longer[..words.len() + more];
        feed.put_index(&right, some, rooms)?;
        feed.put_index(
            &Answer {
                events: n + 1,
                ..right
            },
            some,
            rooms,
        )?;
    }
    Ok(())
}

/// The most headers, the highest places, the most key parts, and one event too many.
fn at_the_limits(feed: &mut Feed) -> Result<(), String> {
    let rooms = |bytes: usize| vec![0, bytes - 1, bytes, bytes + 1];
    let most = records::MAX_RECORDS;
    let mut headers = "[a]\n".repeat(most / 4);
    headers.pop();
    let last = "\n".repeat(most - 4) + "[a]";
    let parts = format!("[[{}a]]", "a.".repeat(most / 2 - 3));
    for text in [headers, last, parts] {
        put_run(feed, &of_text(text.as_bytes())?, rooms)?;
    }
    // without an Eof there is one event more
    let mut pairs = vec![(10, 1); most - 3];
    pairs.extend([(4, 1), (15, 1), (5, 1)]);
    let Judged::Walked(mut lists, None) =
        judged_compared(Entry::Document, 0, &records::from_pairs(&pairs))?
    else {
        return Err("the list of the most events is refused".to_string());
    };
    if lists.events.len() != MOST_EVENTS {
        return Err("the list of the most events has others".to_string());
    }
    put_run(feed, &lists, rooms)?;
    lists.events.push([16, 0, 1, 2]);
    feed.put_index(&answer(&lists), &lists.events.concat(), |_| [40])?;
    feed.note("indexes of files and at the limits");
    Ok(())
}

/// A random run: a list after the grammar, a damaged one, a text, or arbitrary words.
fn run(prng: &mut Prng, turn: u64, files: &[Vec<u8>]) -> Result<(Answer, Vec<u32>), String> {
    let lists = match turn % 4 {
        0 => list(prng, Style::Valid, 90)?,
        1 => list(prng, Style::Damaged, 40)?,
        2 => of_text(&snippets::text(prng, files))?,
        _ => arbitrary(prng),
    };
    Ok((answer(&lists), lists.events.concat()))
}

/// What a list as a document gives; nothing if it is refused.
fn list(prng: &mut Prng, style: Style, most: usize) -> Result<Lists, String> {
    let case = generate::make(prng, style, Some(Entry::Document), most).case;
    Ok(
        match judged_compared(Entry::Document, case.base, &case.bytes)? {
            Judged::Walked(lists, None) => lists,
            _ => Lists::default(),
        },
    )
}

/// Events that no run gives, hardly any of them empty.
fn arbitrary(prng: &mut Prng) -> Lists {
    let mut event = || {
        let (kind, start) = (prng.pick(&KINDS), prng.bits() as u32);
        let end = if prng.one_in(200) {
            start
        } else {
            start ^ (1 << prng.below(32))
        };
        [kind, prng.bits() as u32, start, end]
    };
    let events = (0..40).map(|_| event()).collect::<Vec<_>>();
    let many = prng.below(41);
    Lists {
        events: events[..many].to_vec(),
        ..Lists::default()
    }
}

/// Entries, some of them damaged or cut, and a position.
fn entries(prng: &mut Prng) -> (Vec<u8>, usize) {
    let many = prng.below(4);
    let mut bytes = Vec::new();
    for _ in 0..many {
        let mut numbers = [0; ENTRY];
        numbers.fill_with(|| {
            if prng.one_in(3) {
                255
            } else {
                prng.bits() as u8
            }
        });
        numbers[..6].copy_from_slice(&[17, 0, 0, 0, 1, 0]);
        numbers[12] %= 2;
        bytes.extend(numbers);
    }
    if prng.one_in(3) && many > 0 {
        let at = ENTRY * prng.below(many) + prng.pick(&[0, 1, 2, 3, 4, 5, 12]);
        bytes[at] ^= 1 << prng.below(8);
    }
    bytes.truncate(
        bytes
            .len()
            .saturating_sub(prng.pick(&[0, 0, 0, 1, 16, 17, 18])),
    );
    let at = match prng.below(8) {
        0 => prng.below(bytes.len() + 20),
        1 => prng.pick(&[
            bytes.len(),
            bytes.len() + 1,
            usize::MAX,
            usize::MAX - 16,
            1 << 32,
        ]),
        _ => ENTRY * prng.below(many + 1),
    };
    (bytes, at)
}

/// The words that these bytes are.
pub fn words(bytes: &[u8]) -> Vec<u32> {
    let words = bytes.chunks_exact(4);
    words
        .map(|word| u32::from_le_bytes([word[0], word[1], word[2], word[3]]))
        .collect()
}
