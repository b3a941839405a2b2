//! The oracle as a program: lists one token list or text, answers a batch of them, or
//! makes records and random cases. See README.md.

use std::io::BufRead as _;
use std::io::Read as _;
use std::io::Write as _;
use std::process::ExitCode;

use oracle::batch;
use oracle::batch::number;
use oracle::generate;
use oracle::generate::Style;
use oracle::input;
use oracle::listing::listing;
use oracle::notation;
use oracle::numbers::ERROR_WORDS;
use oracle::prng::Prng;
use oracle::records;
use oracle::texts;
use oracle::texts::Text;
use oracle::walk;
use oracle::Answer;
use oracle::Entry;

const USAGE: &str = "usage:
  oracle ENTRY BASE [--events WORDS] [--errors WORDS] < records
  oracle --batch < cases
  oracle --text < text
  oracle --lex < text
  oracle --texts < lines
  oracle --random|--damaged|--valid|--malformed COUNT SEED ENTRY|any MAXLEN
  oracle --records NOTATION [--no-eof]
  oracle --pairs NOTATION [--no-eof]
ENTRY is document, key, simple_key or value";

fn main() -> ExitCode {
    let words: Vec<String> = std::env::args().skip(1).collect();
    let words: Vec<&str> = words.iter().map(String::as_str).collect();
    match walk::on_large_stack(|| run(&words)) {
        Ok(()) => ExitCode::SUCCESS,
        Err(text) => {
            eprintln!("oracle: {text}");
            ExitCode::from(2)
        }
    }
}

fn run(words: &[&str]) -> Result<(), String> {
    match words {
        ["--batch"] => answer_batch(),
        ["--text"] => list_text(&whole()?),
        ["--lex"] => match texts::judge(&whole()?)? {
            Text::Tokens { records, .. } => put(&records),
            Text::Refused(refusal) => Err(format!(
                "refused {} place {}",
                refusal.number, refusal.place
            )),
        },
        ["--texts"] => answer_texts(),
        ["--random", rest @ ..] => make_cases(Style::Random, rest),
        ["--damaged", rest @ ..] => make_cases(Style::Damaged, rest),
        ["--valid", rest @ ..] => make_cases(Style::Valid, rest),
        ["--malformed", rest @ ..] => make_cases(Style::Malformed, rest),
        ["--records", text] => put(&records::from_pairs(&notation::pairs(text, true))),
        ["--records", text, "--no-eof"] => put(&records::from_pairs(&notation::pairs(text, false))),
        ["--pairs", text] => put_pairs(&notation::pairs(text, true)),
        ["--pairs", text, "--no-eof"] => put_pairs(&notation::pairs(text, false)),
        [entry, base, rest @ ..] => {
            let entry = Entry::from_name(entry).ok_or(USAGE)?;
            list(entry, number(base)?, rest)
        }
        _ => Err(USAGE.to_string()),
    }
}

/// All that is on standard input.
fn whole() -> Result<Vec<u8>, String> {
    let mut bytes = Vec::new();
    let read = input::open()?.read_to_end(&mut bytes);
    read.map(|_| bytes).map_err(|e| input::unread(&e))
}

/// Lists the events and errors of a text, read as a document.
fn list_text(bytes: &[u8]) -> Result<(), String> {
    let text = texts::judge(bytes)?;
    let needs = text.needs();
    let mut events = vec![0; needs.event_words];
    let mut errors = vec![0; needs.error_words];
    let answer = match &text {
        Text::Tokens { judged, .. } => judged.answer(&mut events, &mut errors),
        Text::Refused(refusal) => Answer {
            refusal: refusal.number,
            place: refusal.place,
            ..Answer::default()
        },
    };
    put(listing(&answer, &events, &errors).as_bytes())
}

/// Of texts in hexadecimal, a line each: `fits`, `does not fit`, or `refused N place P`.
fn answer_texts() -> Result<(), String> {
    let mut out = std::io::BufWriter::new(std::io::stdout().lock());
    for line in input::open()?.lines() {
        let line = line.map_err(|e| input::unread(&e))?;
        let text = texts::judge(&batch::bytes([format!("x:{line}").as_str()])?)?;
        let verdict = text.verdict(usize::MAX, usize::MAX);
        let said = match (verdict.refusal, verdict.fits) {
            (0, true) => "fits".to_string(),
            (0, false) => "does not fit".to_string(),
            (refusal, _) => format!("refused {refusal} place {}", verdict.place),
        };
        writeln!(out, "{said}").map_err(|e| e.to_string())?;
    }
    out.flush().map_err(|e| e.to_string())
}

/// Lists one token list. Without a given room the buffers get the size that a
/// first run without any room counts.
fn list(entry: Entry, base: u32, options: &[&str]) -> Result<(), String> {
    let mut rooms: [Option<usize>; 2] = [None, None];
    for option in options.chunks(2) {
        match option {
            ["--events", words] => rooms[0] = Some(number(words)?),
            ["--errors", words] => rooms[1] = Some(number(words)?),
            _ => return Err(USAGE.to_string()),
        }
    }
    let bytes = whole()?;
    let counts = oracle::judge(entry, base, &bytes, &mut [], &mut []);
    let mut events = vec![0; rooms[0].unwrap_or(counts.events * 4)];
    let mut errors = vec![0; rooms[1].unwrap_or(counts.errors * ERROR_WORDS)];
    let answer = oracle::judge_compared(entry, base, &bytes, &mut events, &mut errors)?;
    put(listing(&answer, &events, &errors).as_bytes())
}

/// Answers each line of the input, and stops at the first thing that is wrong.
fn answer_batch() -> Result<(), String> {
    let mut out = std::io::BufWriter::new(std::io::stdout().lock());
    for (place, line) in input::open()?.lines().enumerate() {
        let line = line.map_err(|e| input::unread(&e))?;
        let answer = batch::answer_line(&line);
        let answer = answer.map_err(|text| format!("line {}: {text}", place + 1))?;
        writeln!(out, "{answer}").map_err(|e| e.to_string())?;
    }
    out.flush().map_err(|e| e.to_string())
}

/// Writes random cases, the same ones for the same words.
fn make_cases(style: Style, words: &[&str]) -> Result<(), String> {
    let [count, seed, entry, most] = words else {
        return Err(USAGE.to_string());
    };
    let entry = match *entry {
        "any" => None,
        name => Some(Entry::from_name(name).ok_or(USAGE)?),
    };
    let mut prng = Prng::new(number(seed)?);
    let most = number(most)?;
    let mut out = std::io::BufWriter::new(std::io::stdout().lock());
    for _ in 0..number::<u64>(count)? {
        let line = generate::case(&mut prng, style, entry, most);
        writeln!(out, "{line}").map_err(|e| e.to_string())?;
    }
    out.flush().map_err(|e| e.to_string())
}

fn put(bytes: &[u8]) -> Result<(), String> {
    std::io::stdout()
        .write_all(bytes)
        .map_err(|e| e.to_string())
}

fn put_pairs(pairs: &[(u16, u32)]) -> Result<(), String> {
    let words: Vec<String> = pairs
        .iter()
        .map(|(kind, length)| format!("{kind}:{length}"))
        .collect();
    put(format!("{}\n", words.join(" ")).as_bytes())
}
