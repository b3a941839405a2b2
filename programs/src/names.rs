//! Names as they are printed: of files, and of events.

use std::ffi::OsStr;

use deckmarten::EventKind;

use crate::reading::STANDARD_INPUT;
use crate::shown::visible;

/// A file's name in a message, on one line whatever it is.
pub fn shown(name: &OsStr) -> String {
    if name == STANDARD_INPUT {
        return "<stdin>".to_string();
    }
    name.to_string_lossy().chars().map(|character| if character == '\t' { '\u{2409}' } else { visible(character) }).collect()
}

/// The name of an event as docs/LAYOUT.md and the listing have it: `StdTableOpen` is `std_table_open`.
pub fn of_event(kind: EventKind) -> String {
    let mut name = String::new();
    for character in format!("{kind:?}").chars() {
        if character.is_uppercase() && !name.is_empty() {
            name.push('_');
        }
        name.extend(character.to_lowercase());
    }
    name
}
