//! Lists the events and errors of a file: programs/events.txt says how. The library reads the text; this prints what it gave.
#![forbid(unsafe_code)]

use std::io::{self, BufWriter, Write};
use std::process::ExitCode;

use deckmarten::{Event, Expected, ParseError, Room, TextAnswer};
use programs::names::of_event;
use programs::places::{places, Place};
use programs::reading::read;
use programs::refusals::not_judged;
use programs::words::Words;

const HELP: &str = include_str!("../../events.txt");

fn event_line(to: &mut impl Write, event: &Event, place: Place, text: &[u8]) -> io::Result<()> {
    let encoding = event.encoding.map_or(0, |encoding| encoding.number());
    let piece = String::from_utf8_lossy(&text[event.span.range()]);
    let (name, start, end) = (of_event(event.kind), event.span.start, event.span.end);
    writeln!(to, "{name} {start} {end} {encoding} {}:{} {piece:?}", place.line, place.column)
}

fn error_line(to: &mut impl Write, error: &ParseError, place: Place) -> io::Result<()> {
    let (message, expected, context, unexpected) = (error.message, error.expected, error.context, error.unexpected);
    write!(to, "error {} {} {} {} ", message.number(), expected.number(), context.start, context.end)?;
    write!(to, "{} {} {} {}:{} {message}", unexpected.start, unexpected.end, error.line, place.line, place.column)?;
    match expected {
        Expected::Nothing => writeln!(to),
        expected => writeln!(to, ", expected {expected}"),
    }
}

/// Lists a run that was not refused.
fn list(to: &mut impl Write, text: &[u8], answer: &TextAnswer) -> io::Result<()> {
    writeln!(to, "events {} errors {}", answer.event_count(), answer.error_count())?;
    let starts: Vec<usize> = answer.events().map(|event| event.span.start as usize).collect();
    for (event, place) in answer.events().zip(places(text, &starts)) {
        event_line(to, &event, place, text)?;
    }
    let starts: Vec<usize> = answer.errors().map(|error| error.unexpected.start as usize).collect();
    for (error, place) in answer.errors().zip(places(text, &starts)) {
        error_line(to, &error, place)?;
    }
    to.flush()
}

fn main() -> ExitCode {
    let words = Words::given("events");
    if words.help() {
        return words.print(&words.helped(HELP, "events"));
    }
    if let Some(option) = words.unknown(&[]) {
        return words.wrong(&format!("there is no option {option} (--help has the usage)"));
    }
    let [file] = &words.files[..] else { return words.wrong("one file is to be named (--help has the usage)") };
    let text = match read(file) {
        Ok(text) => text,
        Err(reason) => return words.wrong(&reason),
    };
    let mut room = Room::new();
    let answer = room.parse_text(&text);
    if let Some(refusal) = answer.refusal() {
        return words.wrong(&not_judged(file, &text, refusal, answer.byte()));
    }
    match list(&mut BufWriter::new(io::stdout().lock()), &text, &answer) {
        Ok(()) => ExitCode::SUCCESS,
        Err(reason) => words.unwritten(&reason),
    }
}
