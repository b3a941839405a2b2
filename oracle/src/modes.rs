//! Modes: where the comma of message 19 is looked for. Crate mode is what document.rs does.
//! Brace mode is the sentence of document 02 (T-06), worked out here from what document.rs
//! gave and apart from the library: the nearest Comma between the table's own brackets, and
//! where there is none the empty span before the closing one.

use crate::judge::Judged;
use crate::lexer::Token;
use crate::lexer::TokenKind;
use crate::lines::Lines;
use crate::records;
use crate::records::Refusal;
use crate::walk::Lists;

/// The numbers of the modes.
pub const CRATE: u32 = 0;
pub const BRACE: u32 = 1;
/// The refusal of every other number.
pub const UNKNOWN_MODE: u32 = 15;
/// Some of these.
pub const UNKNOWN: [u32; 3] = [2, 7, u32::MAX];
/// The message whose place hangs on the mode, and the event that follows its report.
pub const TRAILING_COMMA: u32 = 19;
const INLINE_TABLE_CLOSE: u32 = 13;

/// Texts with message 19, and the unexpected start and end and the line of each report of it:
/// in crate mode and in brace mode, written out by hand.
pub type Blamed = &'static [[u32; 3]];
pub const BLAMED: [(&str, Blamed, Blamed); 15] = [
    ("y=[1,\n2]\nx={a=}", &[[4, 5, 1]], &[[14, 14, 3]]),
    ("=[,{a}", &[[2, 3, 1]], &[[5, 5, 1]]),
    ("x={a=1,b={c=}}", &[[6, 7, 1]], &[[12, 12, 1]]),
    ("x={a=1,}", &[[6, 7, 1]], &[[6, 7, 1]]),
    ("x={a}", &[[4, 4, 1]], &[[4, 4, 1]]),
    ("x={a=}", &[[5, 5, 1]], &[[5, 5, 1]]),
    ("x={a=[1,2],b=}", &[[10, 11, 1]], &[[10, 11, 1]]),
    ("x={a=[1,2]b=}", &[[7, 8, 1]], &[[7, 8, 1]]),
    ("x={a={b=1,c=2}d}", &[[9, 10, 1]], &[[9, 10, 1]]),
    ("x={[,]a}", &[[4, 5, 1]], &[[4, 5, 1]]),
    ("x={a=1,[2,3]}", &[[9, 10, 1]], &[[9, 10, 1]]),
    ("x={a,}", &[[4, 5, 1]], &[[4, 5, 1]]),
    ("x={a=,}", &[[5, 6, 1]], &[[5, 6, 1]]),
    (
        "x={a=[{b=1,}]c}",
        &[[10, 11, 1], [10, 11, 1]],
        &[[10, 11, 1], [10, 11, 1]],
    ),
    ("x={a=[\n1,\n2]b=}", &[[8, 9, 2]], &[[8, 9, 2]]),
];

/// Whether a mode has this number.
pub fn is_known(mode: u32) -> bool {
    [CRATE, BRACE].contains(&mode)
}

impl Judged {
    /// What the same records give in the mode of this number. An unknown one is refused before
    /// all else.
    pub fn in_mode(&self, mode: u32, base: u32, bytes: &[u8]) -> Judged {
        match (mode, self) {
            (CRATE, _) => self.clone(),
            (BRACE, Judged::Early(_)) => self.clone(),
            (BRACE, Judged::Walked(lists, stop)) => {
                let tokens = records::tokens(base, bytes).expect("a list that was walked");
                Judged::Walked(in_brace_mode(lists, &tokens), *stop)
            }
            _ => Judged::Early(Refusal {
                number: UNKNOWN_MODE,
                place: 0,
            }),
        }
    }

    /// Whether a place may hang on the mode.
    pub fn hangs_on_mode(&self) -> bool {
        match self {
            Judged::Early(_) => false,
            Judged::Walked(lists, _) => lists.errors.iter().any(|error| error[0] == TRAILING_COMMA),
        }
    }
}

/// The lists with the places of message 19 as brace mode has them.
fn in_brace_mode(lists: &Lists, tokens: &[Token]) -> Lists {
    let mut lists = lists.clone();
    let (brackets, lines) = (Brackets::of(tokens), Lines::of(tokens));
    for (error, before) in lists.errors.iter_mut().zip(&lists.events_before) {
        if error[0] == TRAILING_COMMA {
            // document.rs reports it at the `}`, which it closes the table with right after
            let close = lists.events[*before];
            assert_eq!(close[0], INLINE_TABLE_CLOSE, "the event behind message 19");
            let (start, end) = brackets.blamed(error[2] as usize, close[2] as usize);
            error[4] = start as u32;
            error[5] = end as u32;
            error[6] = lines.line_of(start);
        }
    }
    lists
}

/// Where the curly brackets and the commas start.
struct Brackets {
    opens: Vec<usize>,
    closes: Vec<usize>,
    commas: Vec<usize>,
}

impl Brackets {
    fn of(tokens: &[Token]) -> Self {
        let starts = |kind: TokenKind| {
            let found = tokens.iter().filter(move |token| token.kind() == kind);
            found.map(|token| token.span().start()).collect()
        };
        Self {
            opens: starts(TokenKind::LeftCurlyBracket),
            closes: starts(TokenKind::RightCurlyBracket),
            commas: starts(TokenKind::Comma),
        }
    }

    /// The span of the nearest Comma between the `{` and the `}` that start at these places,
    /// else the empty one before the `}`.
    fn blamed(&self, open: usize, close: usize) -> (usize, usize) {
        let known = |starts: &[usize], start| starts.binary_search(&start).is_ok();
        assert!(known(&self.opens, open) && known(&self.closes, close));
        let before = self.commas.partition_point(|start| *start < close);
        match self.commas[..before].last() {
            Some(comma) if *comma > open => (*comma, *comma + 1),
            _ => (close, close),
        }
    }
}
