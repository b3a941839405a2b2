//! The driver of ./bench: makes a token list and has both parsers walk it, the library as the archive that rt writes and document.rs
//! compiled unchanged over stand-ins for the files that are not here. Both get the same tokens, and buffers of the same size. With
//! texts both go from bytes to events, the Rust by `from_utf8`, lexer/mod.rs and document.rs. A text is made by one run and read from its
//! file by another, so that little but what is measured is counted. With tables one is found, by the index and by looking through all events.

use std::io::Write as _;
use std::process::ExitCode;
use std::time::Duration;
use std::time::Instant;

mod cases;
mod library;
mod original;
mod tables;
mod texts;

use oracle::lexer::Token;
use oracle::modes;
use oracle::modes::TRAILING_COMMA;
use oracle::numbers::ERROR_WORDS;

const USAGE: &str =
    "usage: speed walk|reports|check|time CASE SIZE | make CASE SIZE > FILE | text|alone|time-text FILE | find FILE PATH";

/// What stands behind the name of a case that is walked in brace mode. The Rust has no such mode, and walks it as ever.
const IN_BRACE_MODE: &str = "-brace";

/// How long each side is repeated where times are taken.
const WHILE: Duration = Duration::from_millis(500);

fn main() -> ExitCode {
    let words: Vec<String> = std::env::args().skip(1).collect();
    match run(&words) {
        Ok(()) => ExitCode::SUCCESS,
        Err(text) => {
            eprintln!("speed: {text}");
            ExitCode::from(2)
        }
    }
}

fn run(words: &[String]) -> Result<(), String> {
    let (mode, case, size) = match words {
        [mode, file] => return on_text(mode, file),
        [mode, file, path] if mode == "find" => return tables::find(&read(file)?, path),
        [mode, case, size] => (mode, case, size),
        _ => return Err(USAGE.to_string()),
    };
    let size = size.parse().map_err(|_| USAGE)?;
    if mode == "make" {
        let text = texts::text(case, size).ok_or("no such case")?;
        let done = std::io::stdout().write_all(&text);
        return done.map_err(|error| error.to_string());
    }
    let (case, number) = match case.strip_suffix(IN_BRACE_MODE) {
        Some(case) => (case, modes::BRACE),
        None => (case.as_str(), modes::CRATE),
    };
    let bytes = cases::records(case, size).ok_or("no such case")?;
    let tokens = oracle::records::tokens(0, &bytes)
        .map_err(|refusal| format!("the list is refused: {refusal:?}"))?;
    let mut buffers = Buffers::for_tokens(tokens.len());
    buffers.mode = number;
    match mode.as_str() {
        "walk" => walk(&bytes, &tokens, &mut buffers)?,
        "reports" => {
            walk(&bytes, &tokens, &mut buffers)?;
            library::unreported(&bytes, &mut buffers);
        }
        "check" => library::check(&cases::stopped_at_once(&bytes), &mut buffers),
        "time" => time(&bytes, &tokens, &mut buffers),
        _ => return Err(USAGE.to_string()),
    }
    Ok(())
}

/// The words that both sides write to, and the number of the library's mode.
pub struct Buffers {
    pub mode: u32,
    pub events: Vec<u32>,
    pub errors: Vec<u32>,
}

impl Buffers {
    /// Room for all that this many tokens can give.
    fn for_tokens(tokens: usize) -> Self {
        Self {
            mode: modes::CRATE,
            events: vec![0; 4 * (3 * tokens + 2)],
            errors: vec![0; ERROR_WORDS * (3 * tokens + 2)],
        }
    }
}

/// The words that both sides write to, and the bytes that only the library does.
pub struct TextBuffers {
    pub records: Vec<u8>,
    pub words: Buffers,
}

fn read(file: &str) -> Result<Vec<u8>, String> {
    std::fs::read(file).map_err(|error| format!("{file}: {error}"))
}

/// Both sides on the text in a file.
fn on_text(mode: &str, file: &str) -> Result<(), String> {
    let bytes = read(file)?;
    let most = bytes.len() + 1;
    let mut buffers = TextBuffers {
        records: vec![0; 6 * most],
        words: Buffers::for_tokens(most),
    };
    match mode {
        "text" => {
            let tokens = library::lex(&bytes, &mut buffers.records);
            let counts = text(&bytes, &mut buffers)?;
            println!(
                "{} {tokens} {} {}",
                bytes.len(),
                counts.events,
                counts.errors
            );
            Ok(())
        }
        "alone" => text(&bytes, &mut buffers).map(|_| ()),
        "time-text" => {
            let ours = shortest(|| library::text(&bytes, &mut buffers));
            let theirs = shortest(|| original::text(&bytes, &mut buffers.words));
            let each = |time: Duration| time.as_nanos() as f64 / bytes.len() as f64;
            println!("{:.2} {:.2}", each(ours), each(theirs));
            Ok(())
        }
        _ => Err(USAGE.to_string()),
    }
}

/// Reads the text once on each side, and sees that both gave the same.
fn text(bytes: &[u8], buffers: &mut TextBuffers) -> Result<Counts, String> {
    let counts = library::text(bytes, buffers);
    let words = &mut buffers.words;
    let events = words.events[..4 * counts.events].to_vec();
    let places = error_places(words, counts);
    let theirs = original::text(bytes, words);
    let same = theirs == counts
        && words.events.starts_with(&events)
        && error_places(words, counts) == places;
    if same {
        Ok(counts)
    } else {
        Err("the two sides give different events or errors".to_string())
    }
}

/// How many events and errors a side gave.
#[derive(Copy, Clone, PartialEq, Eq, Debug)]
pub struct Counts {
    pub events: usize,
    pub errors: usize,
}

/// Walks once on each side, sees that both gave the same, and prints `tokens events errors`. Of errors the four words of places are
/// compared: of the others two are an address on the Rust's side, and the line it does not give. In brace mode the places of message 19 may
/// be others.
fn walk(bytes: &[u8], tokens: &[Token], buffers: &mut Buffers) -> Result<(), String> {
    let counts = library::walk(bytes, buffers);
    let events = buffers.events[..4 * counts.events].to_vec();
    let places = error_places(buffers, counts);
    let trailing: Vec<bool> = buffers
        .errors
        .chunks_exact(ERROR_WORDS)
        .map(|words| words[0] == TRAILING_COMMA)
        .collect();
    let in_brace_mode = buffers.mode == modes::BRACE;
    let may_differ = |at: usize| in_brace_mode && trailing[at];
    let theirs = original::walk(tokens, buffers);
    let their_places = error_places(buffers, counts);
    let same = theirs == counts
        && buffers.events.starts_with(&events)
        && (0..counts.errors).all(|at| may_differ(at) || places[at] == their_places[at]);
    if !same {
        return Err("the two sides give different events or errors".to_string());
    }
    println!("{} {} {}", tokens.len(), counts.events, counts.errors);
    Ok(())
}

/// Context and unexpected of each error.
fn error_places(buffers: &Buffers, counts: Counts) -> Vec<[u32; 4]> {
    let errors = buffers.errors.chunks_exact(ERROR_WORDS).take(counts.errors);
    errors
        .map(|words| [words[2], words[3], words[4], words[5]])
        .collect()
}

/// Walks on each side again and again, and prints the nanoseconds of a token on each.
fn time(bytes: &[u8], tokens: &[Token], buffers: &mut Buffers) {
    let ours = shortest(|| library::walk(bytes, buffers));
    let theirs = shortest(|| original::walk(tokens, buffers));
    let each = |time: Duration| time.as_nanos() as f64 / tokens.len() as f64;
    println!("{:.1} {:.1}", each(ours), each(theirs));
}

/// The shortest of many walks.
fn shortest(mut walk: impl FnMut() -> Counts) -> Duration {
    let begin = Instant::now();
    let mut best = Duration::MAX;
    while begin.elapsed() < WHILE {
        let start = Instant::now();
        std::hint::black_box(walk());
        best = best.min(start.elapsed());
    }
    best
}
