//! The mistakes of a run: what it reported, and what it was silent about.

use alloc::vec;
use alloc::vec::Vec;

use crate::limits::{enough_mistake_words, ERROR_SIZE, MAX_RECORDS, RECORD_SIZE};
use crate::{foreign, Answer, ParseError, Refused, Stored};

/// A list of mistakes that is not empty.
///
/// Each is an error as the run reported it, or one that document.rs is silent about, whose message is one of 101 and more.
#[derive(Clone, Debug, PartialEq, Eq)]
#[must_use]
pub struct Mistakes {
    words: Vec<u32>,
}

impl Mistakes {
    /// The mistakes in these words; none if there is no word.
    pub(crate) fn new(mut words: Vec<u32>, count: usize) -> Option<Mistakes> {
        words.truncate(ERROR_SIZE * count);
        words.shrink_to_fit();
        (!words.is_empty()).then_some(Mistakes { words })
    }

    /// How many there are: one at least.
    pub fn count(&self) -> usize {
        self.words.len() / ERROR_SIZE
    }

    /// The mistakes, in the order in which they were found. Places do not always rise: what is never closed is looked for backward.
    pub fn iter(&self) -> Stored<'_, ParseError> {
        Stored::new(&self.words, ERROR_SIZE, ParseError::read)
    }

    /// The mistakes as a person wants to see them: by the place where each shows, and those of one place in the order in which they were found.
    pub fn by_place(&self) -> Vec<ParseError> {
        let mut sorted: Vec<ParseError> = self.iter().collect();
        sorted.sort_by_key(|mistake| mistake.unexpected.start);
        sorted
    }
}

impl<'m> IntoIterator for &'m Mistakes {
    type Item = ParseError;
    type IntoIter = Stored<'m, ParseError>;

    fn into_iter(self) -> Stored<'m, ParseError> {
        self.iter()
    }
}

/// The mistakes of a document run over these records, whose first token starts at `base`: each error, as it is, and what the run is silent
/// about. A run that was refused is refused here too.
///
/// It is proved that, of a regular list ([`is_regular`](crate::is_regular)), there is none exactly if the list fits the token grammar. Of a text [`check`](crate::check)
/// asks all at once.
///
/// ```
/// use deckmarten::{mistakes, Room};
///
/// let mut room = Room::new();
/// let answer = room.parse_text(b"[=ledger]\n");
/// assert_eq!(answer.error_count(), 0);
/// let found = mistakes(answer.records(), answer.base(), &answer)?;
/// let shown: Vec<String> = found.iter().map(|mistake| mistake.to_string()).collect();
/// assert_eq!(shown, ["line 1: key missing at 1..1, expected key", "line 1: text skipped at 1..9"]);
/// # Ok::<(), deckmarten::Refused>(())
/// ```
pub fn mistakes(records: &[u8], base: u32, answer: &Answer<'_>) -> Result<Vec<ParseError>, Refused> {
    let count = (records.len() / RECORD_SIZE).min(MAX_RECORDS);
    let mut words = vec![0; enough_mistake_words(count)];
    let listed = answer.mistakes_into(records, base, &mut words);
    match Refused::answered(listed.refusal, listed.place) {
        Some(refused) => Err(refused),
        None => Ok(Stored::new(&words[..ERROR_SIZE * listed.mistakes], ERROR_SIZE, ParseError::read).collect()),
    }
}

impl Answer<'_> {
    fn mistakes_into(&self, records: &[u8], base: u32, mistakes: &mut [u32]) -> foreign::RawListed {
        let (answer, events, errors) = self.parts();
        foreign::mistakes(records, base, answer, events, errors, mistakes)
    }
}
