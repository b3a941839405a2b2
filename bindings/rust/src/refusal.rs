//! Why a text or a list was not read to its end, or not stored whole.

use core::fmt;

use crate::numbered::numbered;
use crate::Records;

numbered! {
    /// Why a text or a list was not read to its end, or not stored whole. The place is the number of a record, from 0, where nothing else is
    /// said. `PartialRecord` to `Bytes` leave the events and the errors untouched, `TextTooLong` to `Tokens` and `Mode` all three buffers,
    /// `NotQuiet` and `Index` the index.
    #[non_exhaustive]
    Refusal {
        /// The place is the number of whole records.
        PartialRecord = 1 => "the byte length is no multiple of 6",
        /// The place is 65,536.
        Records = 2 => "more than 65,536 records",
        /// The place is the record of that kind.
        Kind = 3 => "a kind outside 1 to 16",
        /// The place is the record of that length.
        Length = 4 => "a length wrong for its kind",
        /// The place is 0 for `base`.
        Bytes = 5 => "`base`, or a record's end, above 16,777,216",
        /// The place is the record that opens it. The buffers hold what was emitted before.
        Depth = 6 => "a 65th array or inline table would be open",
        /// The place is 0. The buffers hold the first entries, and the counts are those of the full lists.
        Events = 7 => "the events do not fit",
        /// The place is 0. The buffers hold the first entries, and the counts are those of the full lists.
        Errors = 8 => "the errors do not fit",
        /// The place is 16,777,216.
        TextTooLong = 9 => "a text of more than 16,777,216 bytes",
        /// The place is the first byte that cannot be UTF-8, from 0: what `valid_up_to` of [`Utf8Error`](core::str::Utf8Error) says.
        NotUtf8 = 10 => "a text that is not UTF-8",
        /// The place is 0.
        Tokens = 11 => "the tokens do not fit",
        /// Of an index; there is no place.
        NotQuiet = 12 => "the run is not quiet",
        /// Of an index; there is no place.
        Index = 13 => "the index does not fit",
        /// Of the mistakes; the place is 0. The buffer holds the first of them, and the count is that of the full list.
        Mistakes = 14 => "the mistakes do not fit",
        /// The place is 0, all else in the answer 0 too, and it comes before all others. No [`Mode`](crate::Mode) gives it.
        Mode = 15 => "an unknown mode",
    }
}

impl Refusal {
    /// The refusal of an answer; none if its number is 0.
    pub(crate) fn answered(number: u32) -> Option<Refusal> {
        (number != 0).then(|| Refusal::from_number(number).expect("a refusal has a number of the list"))
    }
}

impl core::error::Error for Refusal {}

/// A refusal, and where.
#[derive(Clone, Copy, Debug, PartialEq, Eq, Hash)]
pub struct Refused {
    /// Why.
    pub refusal: Refusal,
    /// Where: see [`Refusal`].
    pub place: usize,
}

impl Refused {
    /// The refusal of an answer; none if its number is 0.
    pub(crate) fn answered(number: u32, place: usize) -> Option<Refused> {
        Refusal::answered(number).map(|refusal| Refused { refusal, place })
    }

    /// The byte of the text that the place stands for: the place itself, or where the record of that number starts. These are the text's records.
    pub(crate) fn byte(&self, base: u32, records: &[u8]) -> usize {
        match self.refusal {
            Refusal::TextTooLong | Refusal::NotUtf8 => self.place,
            _ => Records::lengths(records).take(self.place).fold(base as usize, |end, length| end + length as usize),
        }
    }
}

impl fmt::Display for Refused {
    fn fmt(&self, f: &mut fmt::Formatter<'_>) -> fmt::Result {
        write!(f, "{}, at {}", self.refusal, self.place)
    }
}

impl core::error::Error for Refused {}
