//! The feeder of ./differ: makes token lists and texts, asks the oracle (document.rs and
//! lexer/mod.rs compiled unchanged over stand-ins for the files that are not here), and
//! writes frames with what the library must answer. src/frame.rs says what a frame is.
//!
//!     feed --all LENGTH          every list of up to LENGTH tokens, at each entry
//!     feed --random COUNT SEED   COUNT random lists, and lists at the limits, at each entry
//!     feed --fits LENGTH         whether it fits, of every list of up to LENGTH tokens
//!     feed --texts MORE FOLDER   every short text over small alphabets, MORE symbols longer
//!                                than by itself; UTF-8; the files of FOLDER; the limits
//!     feed --random-texts COUNT SEED FOLDER
//!                                COUNT random texts, some of them pieces of the files
//!     feed --index COUNT SEED FOLDER
//!                                the index of headers: job files, the files of FOLDER, the
//!                                limits, and COUNT random runs, quiet and not, with right
//!                                and wrong answers; and entries, whole and damaged
//!     feed --cases < cases       cases, a line each: those of batch mode, and
//!                                `text RECORDBYTES EVENTWORDS ERRORWORDS x:HEX`,
//!                                `fits BASE EVENTWORDS x:HEX`, `header AT x:HEX` and
//!                                `index REFUSAL PLACE EVENTS ERRORS INDEXBYTES x:HEX`;
//!                                `mode:NUMBER` may stand before a list and a text
//!
//! Lists and texts are asked in crate mode or in brace mode, those with message 19 in both, and
//! now and then in an unknown mode, which is refused.
//! `--part K/N` behind these takes only the K-th of N parts of the texts. `--wrong WHAT` at
//! the end asks for something else than the oracle gives, to show that the comparison
//! can fail; src/wrong.rs says what.

use std::io::BufRead as _;
use std::io::Stdout;
use std::process::ExitCode;

use oracle::batch;
use oracle::batch::number;
use oracle::batch::Case;
use oracle::feeding;
use oracle::input;
use oracle::texts::Rooms;
use oracle::walk;
use oracle::wrong::Wrong;
use oracle::wrong::WRONGS;
use oracle::Answer;
use oracle::Entry;

mod index;
mod lists;
mod rooms;
mod texts;

type Feed = feeding::Feed<Stdout>;

/// Lists or texts from one note to the next.
const NOTED: u64 = 250_000;
const USAGE: &str = "usage: feed --all LENGTH | --random COUNT SEED | --fits LENGTH | --texts MORE FOLDER | \
--random-texts COUNT SEED FOLDER | --index COUNT SEED FOLDER | --cases, then perhaps --part K/N, then perhaps --wrong WHAT";

fn main() -> ExitCode {
    let words: Vec<String> = std::env::args().skip(1).collect();
    let words: Vec<&str> = words.iter().map(String::as_str).collect();
    match walk::on_large_stack(|| run(&words)) {
        Ok(()) => ExitCode::SUCCESS,
        Err(text) => {
            eprintln!("feed: {text}");
            ExitCode::from(2)
        }
    }
}

fn run(words: &[&str]) -> Result<(), String> {
    let (words, wrong) = match words {
        [before @ .., "--wrong", what] => (before, Some(wrong(what)?)),
        _ => (words, None),
    };
    let (words, part) = match words {
        [before @ .., "--part", part] => (before, texts::Part::of(part)?),
        _ => (words, texts::Part::WHOLE),
    };
    let feed = Feed::new(std::io::stdout(), wrong);
    // cases from standard input have their modes, all others go through them
    let mut feed = if words == ["--cases"] {
        feed
    } else {
        feed.through_modes()
    };
    match words {
        ["--all", longest] => lists::all(&mut feed, number(longest)?)?,
        ["--random", count, seed] => lists::random(&mut feed, number(count)?, number(seed)?)?,
        ["--fits", longest] => lists::all_fits(&mut feed, number(longest)?)?,
        ["--texts", more, folder] => texts::all(&mut feed, number(more)?, folder, part)?,
        ["--random-texts", count, seed, folder] => {
            texts::random(&mut feed, number(count)?, number(seed)?, folder, part)?;
        }
        ["--index", count, seed, folder] => {
            index::all(&mut feed, number(count)?, number(seed)?, folder)?;
        }
        ["--cases"] => {
            for line in input::open()?.lines() {
                put_line(&mut feed, &line.map_err(|e| input::unread(&e))?)?;
            }
        }
        _ => return Err(USAGE.to_string()),
    }
    feed.end()
}

fn wrong(what: &str) -> Result<Wrong, String> {
    let found = WRONGS.iter().find(|known| known.0 == what);
    found
        .map(|known| known.1)
        .ok_or(format!("nothing wrong is called {what:?}"))
}

/// Adds the case in a line.
fn put_line(feed: &mut Feed, line: &str) -> Result<(), String> {
    let (mode, behind) = batch::with_mode(line)?;
    let words: Vec<&str> = behind.split_ascii_whitespace().collect();
    match words.as_slice() {
        ["text", records, events, errors, rest @ ..] => {
            let room = Rooms {
                record_bytes: number(records)?,
                event_words: number(events)?,
                error_words: number(errors)?,
            };
            feed.put_text(mode, &batch::bytes(rest.iter().copied())?, |_| [room])
        }
        ["fits", base, events, rest @ ..] => {
            let bytes = batch::bytes(rest.iter().copied())?;
            let (base, events) = (number(base)?, number(events)?);
            feed.put_fits(Case::at(Entry::Document, base, bytes), |_| [events])
        }
        ["header", at, rest @ ..] => {
            feed.put_found(&batch::bytes(rest.iter().copied())?, number(at)?)
        }
        ["index", refusal, place, events, errors, room, rest @ ..] => {
            let answer = Answer {
                refusal: number(refusal)?,
                place: number(place)?,
                events: number(events)?,
                errors: number(errors)?,
            };
            let bytes = batch::bytes(rest.iter().copied())?;
            let room = number(room)?;
            feed.put_index(&answer, &index::words(&bytes), |_| [room])
        }
        _ => feed.put(batch::parse(line)?),
    }
}
