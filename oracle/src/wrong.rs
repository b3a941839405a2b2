//! What the feeder of ./differ asks for on purpose though the oracle does not give it, to
//! show that the comparison can fail.

use crate::numbers::ERROR_WORDS;
use crate::texts;
use crate::texts::Text;
use crate::Judged;

/// Something else than the oracle gives that is asked for on purpose.
#[derive(Copy, Clone, PartialEq, Eq, Debug)]
pub enum Wrong {
    /// At each report 13 what was expected is another.
    Reports,
    /// No line is less than that of the report before it.
    Lines,
    /// Each multi-line basic string of a text is a multi-line literal one.
    Records,
    /// What is not UTF-8 begins one byte later.
    Places,
    /// The last record of a text is not written.
    Untouched,
    /// A list with `{` in it fits if it does not, and the other way round.
    Fits,
    /// The same of a text.
    TextFits,
    /// A header of two key parts has one event less.
    Index,
    /// In brace mode the comma of message 19 is the one of crate mode.
    Brace,
    /// An unknown mode is crate mode.
    Modes,
    /// What is read from the entry of an array table says that it is none.
    Entries,
}

/// All of them, with their names.
pub const WRONGS: [(&str, Wrong); 14] = [
    ("reports", Wrong::Reports),
    ("lines", Wrong::Lines),
    ("text_lines", Wrong::Lines),
    ("records", Wrong::Records),
    ("places", Wrong::Places),
    ("untouched", Wrong::Untouched),
    ("fits", Wrong::Fits),
    ("text_fits", Wrong::TextFits),
    ("index", Wrong::Index),
    ("entries", Wrong::Entries),
    ("brace", Wrong::Brace),
    ("text_brace", Wrong::Brace),
    ("modes", Wrong::Modes),
    ("text_modes", Wrong::Modes),
];

/// Makes what the text gives wrong.
pub fn spoil(text: &mut Text, wrong: Wrong) {
    match (text, wrong) {
        (Text::Refused(refusal), Wrong::Places) if refusal.number == texts::NOT_UTF8 => {
            refusal.place += 1;
        }
        (Text::Tokens { judged, .. }, Wrong::Reports | Wrong::Lines) => {
            if let Judged::Walked(lists, _) = judged {
                spoil_errors(lists.errors.iter_mut().map(|error| &mut error[..]), wrong);
            }
        }
        (Text::Tokens { records, .. }, Wrong::Records) => {
            let strings = records.chunks_exact_mut(6).filter(|record| record[4] == 14);
            strings.for_each(|record| record[4] = 13);
        }
        (Text::Tokens { records, fits, .. }, Wrong::TextFits) => {
            *fits ^= records.chunks_exact(6).any(|record| record[4] == 6);
        }
        _ => {}
    }
}

/// Makes errors wrong.
pub fn spoil_errors<'e>(errors: impl Iterator<Item = &'e mut [u32]>, wrong: Wrong) {
    let mut line = 0;
    for error in errors {
        match wrong {
            Wrong::Reports if error[0] == 13 => error[1] += 1,
            Wrong::Lines => {
                line = line.max(error[ERROR_WORDS - 1]);
                error[ERROR_WORDS - 1] = line;
            }
            _ => {}
        }
    }
}
