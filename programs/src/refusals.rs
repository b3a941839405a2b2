//! What a person is told of a text that was not judged.

use std::ffi::OsStr;

use deckmarten::Refusal;

use crate::names::shown;
use crate::places::places;

/// The line that says why a text was not judged, and where: the refusal, and the byte of the text at which it was given.
pub fn not_judged(file: &OsStr, text: &[u8], refusal: Refusal, byte: usize) -> String {
    let name = shown(file);
    let why = match refusal {
        Refusal::TextTooLong => return format!("{name}: not judged: more than 16,777,216 bytes"),
        Refusal::NotUtf8 => format!("not UTF-8 from byte {byte} on"),
        Refusal::Records => "more than 65,536 tokens".to_string(),
        Refusal::Depth => "a 65th array or inline table is open".to_string(),
        other => other.to_string(),
    };
    let place = places(text, &[byte])[0];
    format!("{name}:{}:{}: not judged: {why}", place.line, place.column)
}
