//! Prints what the program of the limits (crates/limits) must print, by the oracle:
//! document.rs compiled unchanged over stand-ins for the files that are not here.

use std::process::ExitCode;

use oracle::feeding::right_length;
use oracle::numbers::ERROR_WORDS;
use oracle::records;
use oracle::walk;
use oracle::Entry;

const EQUALS: u16 = 2;
const LEFT: u16 = 4;
const RIGHT: u16 = 5;
const ATOM: u16 = 15;
const EOF: u16 = 16;
/// Words of room for 256 events.
const AMPLE: usize = 1024;

fn main() -> ExitCode {
    match walk::on_large_stack(print) {
        Ok(()) => ExitCode::SUCCESS,
        Err(text) => {
            eprintln!("limits: {text}");
            ExitCode::from(2)
        }
    }
}

fn print() -> Result<(), String> {
    for depth in [64, 65] {
        let runs = [
            (ATOM, 1),
            (EQUALS, 1),
            (LEFT, depth),
            (RIGHT, depth),
            (EOF, 1),
        ];
        show(&format!("{depth} nested arrays"), &runs, 0, AMPLE)?;
    }
    for count in [65_536, 65_537] {
        let runs = [(ATOM, 1), (EQUALS, 1), (ATOM, count - 2)];
        show(&format!("{count} records"), &runs, 0, AMPLE)?;
    }
    for room in [12, 8] {
        let pair = [(ATOM, 1), (EQUALS, 1), (ATOM, 1), (EOF, 1)];
        show(&format!("three events in {room} words"), &pair, 0, room)?;
    }
    for kind in [EOF, ATOM] {
        let name = format!("base 16777216 and one record of kind {kind}");
        show(&name, &[(kind, 1)], 16_777_216, AMPLE)?;
    }
    Ok(())
}

/// The line of a list, given as kinds and how often each stands there.
fn show(name: &str, runs: &[(u16, usize)], base: u32, room: usize) -> Result<(), String> {
    let kinds = runs.iter().flat_map(|(kind, count)| vec![*kind; *count]);
    let pairs: Vec<(u16, u32)> = kinds.map(|kind| (kind, right_length(kind, 1))).collect();
    let (mut events, mut errors) = (vec![0; room], vec![0; 10 * ERROR_WORDS]);
    let bytes = records::from_pairs(&pairs);
    let a = oracle::judge_compared(Entry::Document, base, &bytes, &mut events, &mut errors)?;
    print!(
        "{name}: refusal {} place {} events {} errors {}",
        a.refusal, a.place, a.events, a.errors
    );
    match events.chunks_exact(4).take(a.events).next_back() {
        Some(last) => println!(
            ", last event {} {} {} {}",
            last[0], last[1], last[2], last[3]
        ),
        None => println!(", no event"),
    }
    Ok(())
}
