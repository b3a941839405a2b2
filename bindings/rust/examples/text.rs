//! Shows what the library makes of texts: whether each fits the token grammar, its events with their bytes, and all its errors.
//!
//!     text FILE...
//!
//! Exit status: 0 if every text fits, 1 if one does not, 2 if a file cannot be read. What a yes does not promise is in docs/USING.md.

use std::process::ExitCode;

use deckmarten::{Refused, Room};

/// Shows one text and answers whether it fits.
fn show(room: &mut Room, name: &str, text: &[u8]) -> bool {
    let answer = room.parse_text(text);
    // a text's records end in one Eof and have no adjacent Whitespace, so they fit if the run is quiet and no key is a multi-line string
    let fits = answer.is_quiet() && !answer.events().any(|event| event.is_multi_line_key());
    match answer.refusal() {
        Some(refusal) => println!("{name}: refused: {}", Refused { refusal, place: answer.place() }),
        None => println!("{name}: {}", if fits { "fits" } else { "does not fit" }),
    }
    for event in answer.events() {
        println!("  {event}: {:?}", String::from_utf8_lossy(&text[event.span.range()]));
    }
    for error in answer.errors() {
        println!("  {error}");
    }
    for key in answer.events().filter(|event| event.is_multi_line_key()) {
        println!("  a multi-line string is no key at {}", key.span);
    }
    fits
}

fn main() -> ExitCode {
    let (mut room, mut all_fit) = (Room::new(), true);
    if std::env::args().len() < 2 {
        eprintln!("usage: text FILE...");
        return ExitCode::from(2);
    }
    for name in std::env::args().skip(1) {
        match std::fs::read(&name) {
            Ok(text) => all_fit &= show(&mut room, &name, &text),
            Err(reason) => {
                eprintln!("text: {name} cannot be read: {reason}");
                return ExitCode::from(2);
            }
        }
    }
    ExitCode::from(if all_fit { 0 } else { 1 })
}
