//! The line of an error, by the sentence of document 02 (T-04) and apart from the library:
//! one more than the Newline tokens that end at or before the unexpected start. Line
//! breaks inside multi-line strings are parts of other tokens and do not count.

use crate::lexer::Token;
use crate::lexer::TokenKind;

/// Texts with lines that may surprise: message, unexpected start and end, and line of each
/// error, written out by hand. Lines fall back behind messages 7, 14 and 19, which look
/// back; a carriage return alone ends a line, and breaks inside strings do not.
pub const SURPRISING: [(&str, &[[u32; 4]]); 10] = [
    ("x=[[\n", &[[7, 5, 5, 2], [7, 4, 4, 1]]),
    ("=[{\n", &[[13, 3, 4, 1], [14, 4, 4, 2], [7, 3, 3, 1]]),
    ("x=[1 #c", &[[7, 4, 4, 1]]),
    ("y=[1,\n2]\nx={a=}", &[[19, 4, 5, 1]]),
    (",\n={a}", &[[26, 0, 0, 1], [19, 0, 1, 1]]),
    ("x=[1\n", &[[7, 5, 5, 2]]),
    ("x={\n}", &[[13, 3, 4, 1]]),
    (
        "a\r\nb\rc\nd",
        &[[5, 1, 1, 1], [5, 4, 4, 2], [5, 6, 6, 3], [5, 8, 8, 4]],
    ),
    ("'\r\n=", &[[5, 2, 2, 1]]),
    ("\"\"\"\n\n\"\"\"\na", &[[5, 8, 8, 1], [5, 10, 10, 2]]),
];

/// The lines of a token list: where its Newline tokens end. They lie end to end with the
/// others and none is empty, so the ends rise.
pub struct Lines {
    ends: Vec<usize>,
}

impl Lines {
    /// The lines of these tokens.
    pub fn of(tokens: &[Token]) -> Self {
        let newlines = tokens
            .iter()
            .filter(|token| token.kind() == TokenKind::Newline);
        Self {
            ends: newlines.map(|token| token.span().end()).collect(),
        }
    }

    /// The line of a place.
    pub fn line_of(&self, place: usize) -> u32 {
        let before = self.ends.partition_point(|end| *end <= place);
        1 + u32::try_from(before).expect("a line fits a word")
    }
}

#[cfg(test)]
mod tests {
    use super::*;
    use crate::records;

    #[test]
    fn each_place_has_the_line_that_the_sentence_says() {
        let bytes = records::from_pairs(&[(10, 1), (15, 2), (10, 3), (14, 4), (10, 1), (16, 0)]);
        let tokens = records::tokens(5, &bytes).unwrap();
        let lines = Lines::of(&tokens);
        for place in 0..20 {
            let ended = |token: &&Token| token.kind().number() == 10 && token.span().end() <= place;
            let sentence = tokens.iter().filter(ended).count() as u32 + 1;
            assert_eq!(lines.line_of(place), sentence, "{place}");
        }
        let found = [0, 5, 6, 10, 11, 15, 16, 19].map(|place| lines.line_of(place));
        assert_eq!(found, [1, 1, 2, 2, 3, 3, 4, 4]);
    }

    #[test]
    fn without_a_newline_all_is_line_1() {
        assert_eq!(Lines::of(&[]).line_of(0), 1);
        assert_eq!(Lines::of(&[]).line_of(usize::MAX), 1);
    }
}
