//! Texts beyond the limits: what the library refuses must come to the sink as the last report, behind all that was seen before.

use crate::over_the_library;
use crate::seen::{Places, Report, DEEP};

/// Texts that are refused, each with what the report says and where, and how many events come before.
fn refused() -> [(String, &'static str, Places, usize); 5] {
    let deep = |open: &str, close: &str| format!("x={}1{}", open.repeat(65), close.repeat(65));
    [
        (deep("[", "]"), DEEP, (66, 67), 66),
        (deep("{a=", "}"), DEEP, (194, 195), 194),
        ("\n".repeat(65_536), "more than 65,536 records", (65_536, 65_536), 0),
        ("=".repeat(70_000), "more than 65,536 records", (65_536, 65_537), 0),
        ("#".repeat(16_777_217), "`base`, or a record's end, above 16,777,216", (0, 16_777_217), 0),
    ]
}

/// How many texts beyond the limits were reported. An error is one that was not, or not as it should be.
pub fn all() -> Result<usize, String> {
    for (text, description, at, events) in refused() {
        let (head, seen) = (&text[..text.len().min(8)], over_the_library::seen(&text));
        let run = &seen.runs[0];
        let wanted = Report { description, context: Some(at), expected: Some(Vec::new()), unexpected: Some(at) };
        if run.reports != [wanted] || run.events.len() != events {
            return Err(format!("{head:?}..: {} events and {:?}", run.events.len(), run.reports));
        }
    }
    Ok(refused().len())
}
