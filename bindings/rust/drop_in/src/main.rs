//! Compiles one program (src/program.rs) over the oracle, which is document.rs and lexer/mod.rs compiled unchanged over stand-ins for the files that
//! are not here, and over deckmarten::toml_parser, and compares what both saw:
//!
//!     drop-in FOLDER COUNT SEED            texts: every short one, the files of FOLDER and its folders, COUNT random ones
//!     drop-in FOLDER COUNT SEED --wrong    the same, with one report left out on one side: a difference must be found
//!
//! Texts beyond the limits, which the library refuses, must be reported to the sink. The exit status is 1 where something differs, and 2 where a word or a file is wrong.

use std::path::Path;
use std::process::ExitCode;

use oracle::prng::Prng;
use oracle::{snippets, walk};
use seen::Seen;

mod limits;
mod seen;

mod over_the_original {
    use oracle as toml_parser;
    include!("program.rs");
}
mod over_the_library {
    use deckmarten::toml_parser;
    include!("program.rs");
}

/// What the short texts are made of: their head, the symbols, and how many of them at most.
const ALPHABETS: [(&str, &[&str], u32); 5] = [
    ("", &["a", ".", "=", ",", "[", "]", "{", "}", " ", "#", "\n", "\r", "'", "\"", "\\", "é"], 3),
    ("\u{feff}", &["a", "=", "[", "]", "\n", "\u{feff}"], 3),
    ("a=", &["'", "\"", "\\", "\n", "a"], 4),
    ("x={", &["a", "=", ",", "[", "]", "{", "}", "\n"], 3),
    ("x=[", &["a", "=", ",", "[", "]", "{", "}", "\n"], 3),
];

/// How many texts were compared, and what was seen in them.
#[derive(Default)]
struct Compared {
    wrong: bool,
    texts: usize,
    events: usize,
    reports: usize,
    refused: usize,
}

impl Compared {
    /// Compares a text. An error is a difference.
    fn text(&mut self, text: &str) -> Result<(), String> {
        let (theirs, mut ours) = (over_the_original::seen(text), over_the_library::seen(text));
        if self.wrong {
            leave_out(&mut ours);
        }
        if theirs.tokens != ours.tokens {
            return Err(format!("{text:?}: the tokens {:?} of the original, and {:?} here", theirs.tokens, ours.tokens));
        }
        for (number, (theirs, ours)) in theirs.runs.iter().zip(&ours.runs).enumerate() {
            if let Some(before) = ours.refused().filter(|before| before.begins(theirs)) {
                self.refused += usize::from(before != *theirs);
            } else if ours != theirs {
                return Err(format!("{text:?}, run {number}: {theirs:?} of the original, and {ours:?} here"));
            }
            self.events += ours.events.len();
            self.reports += ours.reports.len();
        }
        self.texts += 1;
        Ok(())
    }

    /// Every text of up to so many symbols behind the head.
    fn short(&mut self, head: &str, symbols: &[&str], longest: u32) -> Result<(), String> {
        let many = symbols.len();
        for length in 0..=longest {
            for turn in 0..many.pow(length) {
                let text = (0..length).map(|at| symbols[turn / many.pow(at) % many]);
                self.text(&(head.to_string() + &text.collect::<String>()))?;
            }
        }
        Ok(())
    }
}

/// Takes one report out, where there is one.
fn leave_out(seen: &mut Seen) {
    if let Some(run) = seen.runs.iter_mut().find(|run| !run.reports.is_empty()) {
        run.reports.pop();
    }
}

/// The TOML files below a folder, by name.
fn files(folder: &Path, found: &mut Vec<Vec<u8>>) -> Result<(), String> {
    let wrong = |reason: std::io::Error| format!("{}: {reason}", folder.display());
    let mut paths = Vec::new();
    for entry in std::fs::read_dir(folder).map_err(wrong)? {
        paths.push(entry.map_err(wrong)?.path());
    }
    paths.sort();
    for path in paths {
        if path.is_dir() {
            files(&path, found)?;
        } else if path.extension().is_some_and(|name| name == "toml") {
            found.push(std::fs::read(&path).map_err(wrong)?);
        }
    }
    Ok(())
}

fn run(folder: &str, count: u64, seed: u64, wrong: bool) -> Result<String, String> {
    let mut compared = Compared { wrong, ..Compared::default() };
    for (head, symbols, longest) in ALPHABETS {
        compared.short(head, symbols, longest)?;
    }
    let mut texts = Vec::new();
    files(Path::new(folder), &mut texts)?;
    let mut not_utf8 = 0;
    let random = (0..count).map(|turn| snippets::text(&mut Prng::new(Prng::new(seed ^ turn << 20).bits()), &texts));
    for text in texts.iter().cloned().chain(random) {
        match std::str::from_utf8(&text) {
            Ok(text) => compared.text(text)?,
            Err(_) => not_utf8 += 1, // no text that either side takes
        }
    }
    let limits = limits::all()?;
    let Compared { texts, events, reports, refused, .. } = compared;
    let seen = format!(
        "{texts} texts at four entries, {events} events and {reports} reports alike, {refused} runs of them refused for depth"
    );
    Ok(format!("{seen}; {not_utf8} left out that are not UTF-8; {limits} beyond the limits reported"))
}

fn main() -> ExitCode {
    let words: Vec<String> = std::env::args().skip(1).collect();
    let words: Vec<&str> = words.iter().map(String::as_str).collect();
    let (folder, count, seed, wrong) = match words[..] {
        [folder, count, seed] => (folder, count, seed, false),
        [folder, count, seed, "--wrong"] => (folder, count, seed, true),
        _ => ("", "", "", false),
    };
    let (Ok(count), Ok(seed)) = (count.parse(), seed.parse()) else {
        eprintln!("usage: drop-in FOLDER COUNT SEED [--wrong]");
        return ExitCode::from(2);
    };
    match walk::on_large_stack(|| run(folder, count, seed, wrong)) {
        Ok(line) => println!("{line}"),
        Err(line) => {
            println!("{line}");
            return ExitCode::from(1);
        }
    }
    ExitCode::SUCCESS
}
