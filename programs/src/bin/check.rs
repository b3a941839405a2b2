//! Checks files: programs/check.txt says how. The library judges; this reads, and prints what it said.
#![forbid(unsafe_code)]

use std::ffi::OsStr;
use std::io::{self, BufWriter, Write};
use std::process::ExitCode;

use deckmarten::{check, Expected, Mistakes, ParseError, Trouble};
use programs::names::shown;
use programs::places::{places, Place};
use programs::reading::{read, STANDARD_INPUT};
use programs::refusals::not_judged;
use programs::shown::excerpt;
use programs::words::Words;

const HELP: &str = include_str!("../../check.txt");
const OPTIONS: [&str; 3] = ["--brief", "--count", "--verbose"];

/// What is printed, and what was found so far.
struct Checked<W: Write> {
    name: String,
    to: W,
    brief: bool,
    count: bool,
    verbose: bool,
    mistakes: usize,
    not_judged: bool,
}

impl<W: Write> Checked<W> {
    fn file(&mut self, file: &OsStr) -> io::Result<()> {
        match read(file) {
            Err(reason) => self.trouble(&reason),
            Ok(text) => match check(&text) {
                Ok(_) if self.verbose && !self.count => writeln!(self.to, "{}: fits", shown(file))?,
                Ok(_) => {}
                Err(Trouble::Mistakes(mistakes)) => self.mistakes(file, &text, &mistakes)?,
                Err(Trouble::Refused { refused, byte }) => self.trouble(&not_judged(file, &text, refused.refusal, byte)),
            },
        }
        Ok(())
    }

    /// Says on standard error why a file was not judged, behind what was printed before.
    fn trouble(&mut self, reason: &str) {
        self.not_judged = true;
        let _ = self.to.flush();
        let _ = writeln!(io::stderr(), "{}: {reason}", self.name);
    }

    fn mistakes(&mut self, file: &OsStr, text: &[u8], mistakes: &Mistakes) -> io::Result<()> {
        self.mistakes += mistakes.count();
        if self.count {
            return Ok(());
        }
        let sorted = mistakes.by_place();
        let bytes: Vec<usize> = sorted.iter().map(|mistake| mistake.unexpected.start as usize).collect();
        let name = shown(file);
        let text_of_file = std::str::from_utf8(text).unwrap_or_default(); // the library has seen that it is UTF-8
        for (mistake, place) in sorted.iter().zip(places(text, &bytes)) {
            self.mistake(&name, mistake, text_of_file, place)?;
        }
        Ok(())
    }

    fn mistake(&mut self, name: &str, mistake: &ParseError, text: &str, place: Place) -> io::Result<()> {
        write!(self.to, "{name}:{}:{}: error: {}", place.line, place.column, mistake.message)?;
        match mistake.expected {
            Expected::Nothing => writeln!(self.to)?,
            expected => writeln!(self.to, ", expected {expected}")?,
        }
        if self.brief {
            return Ok(());
        }
        self.to.write_all(excerpt(text, place).as_bytes())
    }

    fn end(&mut self) -> io::Result<ExitCode> {
        if self.count && !self.not_judged {
            writeln!(self.to, "{}", self.mistakes)?;
        }
        self.to.flush()?;
        Ok(ExitCode::from(match (self.not_judged, self.mistakes) {
            (true, _) => 2,
            (false, 0) => 0,
            (false, _) => 1,
        }))
    }
}

fn run(words: &Words) -> io::Result<ExitCode> {
    let to = BufWriter::new(io::stdout().lock());
    let has = |option: &str| words.options.iter().any(|given| given == option);
    let (brief, count, verbose) = (has(OPTIONS[0]), has(OPTIONS[1]), has(OPTIONS[2]));
    let mut checked = Checked { name: words.name.clone(), to, brief, count, verbose, mistakes: 0, not_judged: false };
    for file in &words.files {
        checked.file(file)?;
    }
    checked.end()
}

fn main() -> ExitCode {
    let words = Words::given("check");
    if words.help() {
        return words.print(&words.helped(HELP, "check"));
    }
    if let Some(option) = words.unknown(&OPTIONS) {
        return words.wrong(&format!("there is no option {option} (--help lists them)"));
    }
    if words.files.is_empty() {
        return words.wrong("no file is named (--help has the usage)");
    }
    if words.files.iter().filter(|file| *file == STANDARD_INPUT).count() > 1 {
        return words.wrong("standard input can be read once");
    }
    run(&words).unwrap_or_else(|reason| words.unwritten(&reason))
}
