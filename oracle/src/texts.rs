//! What a text must give: its token records, and through the joined entry its events
//! and errors, with the refusals of texts (9 to 11) before those of document 01.
//!
//! The tokens are those of lexer/mod.rs, the events those of document.rs, both
//! unchanged.

use crate::grammar;
use crate::judge::judged_tokens;
use crate::lexer::Token;
use crate::lexer::TokenKind;
use crate::modes;
use crate::numbers::ERROR_WORDS;
use crate::records;
use crate::records::Refusal;
use crate::Entry;
use crate::Judged;
use crate::Source;

/// The most bytes a text may have.
pub const MAX_BYTES: usize = records::MAX_PLACE as usize;
/// Refusals of texts.
pub const TOO_LONG: u32 = 9;
pub const NOT_UTF8: u32 = 10;
pub const NO_ROOM_FOR_RECORDS: u32 = 11;

/// What lexing answers.
#[derive(Copy, Clone, Default, PartialEq, Eq, Debug)]
pub struct Lexed {
    pub refusal: u32,
    pub place: usize,
    pub base: u32,
    pub records: usize,
}

/// What the joined entry answers: as lexing, and the counts of both lists.
#[derive(Copy, Clone, Default, PartialEq, Eq, Debug)]
pub struct TextAnswer {
    pub lexed: Lexed,
    pub events: usize,
    pub errors: usize,
}

/// Whether a list or a text fits, or why that was not judged.
#[derive(Copy, Clone, Default, PartialEq, Eq, Debug)]
pub struct Verdict {
    pub fits: bool,
    pub refusal: u32,
    pub place: usize,
}

/// Sizes of the three buffers: bytes, words, words.
#[derive(Copy, Clone, Default, PartialEq, Eq, Debug)]
pub struct Rooms {
    pub record_bytes: usize,
    pub event_words: usize,
    pub error_words: usize,
}

/// What a text gives before any room is known.
#[derive(Clone, PartialEq, Eq, Debug)]
pub enum Text {
    /// A refusal that comes before any token.
    Refused(Refusal),
    Tokens {
        base: u32,
        /// The token records, 6 bytes each.
        records: Vec<u8>,
        /// What these records give.
        judged: Judged,
        /// Whether they fit the token grammar.
        fits: bool,
    },
}

/// The text's tokens, by lexer/mod.rs; or a refusal. The base is where they begin.
pub fn tokens(text: &[u8]) -> Result<(u32, Vec<Token>), Refusal> {
    let refuse = |number, place| Err(Refusal { number, place });
    if text.len() > MAX_BYTES {
        return refuse(TOO_LONG, MAX_BYTES);
    }
    match std::str::from_utf8(text) {
        Err(error) => refuse(NOT_UTF8, error.valid_up_to()),
        Ok(text) => {
            let tokens = Source::new(text).lex().into_vec();
            let base = tokens[0].span().start();
            Ok((base as u32, tokens))
        }
    }
}

/// What the text gives, or a text on what is wrong with the oracle: tokens that do not
/// lie end to end or break a premise of demand 3, or a parser and a recogniser that do
/// not agree.
pub fn judge(text: &[u8]) -> Result<Text, String> {
    let (base, tokens) = match tokens(text) {
        Ok(found) => found,
        Err(refusal) => return Ok(Text::Refused(refusal)),
    };
    let kinds: Vec<TokenKind> = tokens.iter().map(Token::kind).collect();
    lie_end_to_end(&tokens, text.len())?;
    if !grammar::is_regular(&kinds) {
        return Err("the text's tokens are not regular".to_string());
    }
    let records = records_of(&tokens);
    let judged = judged_tokens(Entry::Document, base, &records, &tokens)?;
    let fits = fits(&kinds, &judged)?;
    Ok(Text::Tokens {
        base,
        records,
        judged,
        fits,
    })
}

/// Whether a list that document.rs has read fits; an error if it is regular and not quiet
/// exactly where it fits the wide grammar, or not quiet with no multi-line key exactly
/// where it fits. A list that is refused does not count as fitting.
pub fn fits(kinds: &[TokenKind], judged: &Judged) -> Result<bool, String> {
    let Judged::Walked(lists, None) = judged else {
        return Ok(false);
    };
    let regular = grammar::is_regular(kinds);
    let fits = regular && grammar::is_document(kinds);
    if regular && grammar::is_wide_document(kinds) != lists.is_quiet() {
        return Err(format!("quiet is not fitting the wide grammar: {kinds:?}"));
    }
    if regular && fits != (lists.is_quiet() && !lists.has_multi_line_key()) {
        return Err(format!(
            "quiet with no multi-line key is not fitting: {kinds:?}"
        ));
    }
    Ok(fits)
}

/// An error unless the tokens begin at 0 or 3 and lie end to end up to the text's end.
fn lie_end_to_end(tokens: &[Token], bytes: usize) -> Result<(), String> {
    let [first, .., last] = tokens else {
        return if tokens.len() == 1 && [0, 3].contains(&bytes) {
            Ok(())
        } else {
            Err("the text has too few tokens".to_string())
        };
    };
    let joined = tokens
        .windows(2)
        .all(|pair| pair[0].span().end() == pair[1].span().start());
    if joined && [0, 3].contains(&first.span().start()) && last.span().end() == bytes {
        Ok(())
    } else {
        Err(format!("tokens do not lie end to end: {tokens:?}"))
    }
}

/// The records of these tokens.
fn records_of(tokens: &[Token]) -> Vec<u8> {
    let mut bytes = Vec::with_capacity(6 * tokens.len());
    for token in tokens {
        let length = token.span().end() - token.span().start();
        records::push(&mut bytes, token.kind().number(), length as u32);
    }
    bytes
}

impl Text {
    /// Bytes and words that are just enough for all that the text gives.
    pub fn needs(&self) -> Rooms {
        match self {
            Text::Refused(_) => Rooms::default(),
            Text::Tokens {
                records, judged, ..
            } => {
                let (events, errors) = judged.counts();
                Rooms {
                    record_bytes: records.len(),
                    event_words: 4 * events,
                    error_words: ERROR_WORDS * errors,
                }
            }
        }
    }

    /// What lexing answers with so many bytes for records. They are written if the
    /// answer has no refusal.
    pub fn lexed(&self, record_bytes: usize) -> Lexed {
        match self {
            Text::Refused(refusal) => Lexed {
                refusal: refusal.number,
                place: refusal.place,
                ..Lexed::default()
            },
            Text::Tokens { base, records, .. } => {
                let count = records.len() / 6;
                if record_bytes / 6 < count {
                    Lexed {
                        refusal: NO_ROOM_FOR_RECORDS,
                        records: count,
                        ..Lexed::default()
                    }
                } else {
                    Lexed {
                        base: *base,
                        records: count,
                        ..Lexed::default()
                    }
                }
            }
        }
    }

    /// The same text in brace mode if that is its number. What an unknown mode gives is in
    /// [`Text::parsed`], since what the text gives without one stays.
    pub fn in_mode(&self, mode: u32) -> Text {
        let mut text = self.clone();
        if let Text::Tokens {
            base,
            records,
            judged,
            ..
        } = &mut text
        {
            if mode == modes::BRACE {
                *judged = judged.in_mode(mode, *base, records);
            }
        }
        text
    }

    /// Whether a place may hang on the mode.
    pub fn hangs_on_mode(&self) -> bool {
        match self {
            Text::Refused(_) => false,
            Text::Tokens { judged, .. } => judged.hangs_on_mode(),
        }
    }

    /// What the joined entry answers to the text of this mode, with so much room. Records are
    /// written as by lexing, events and errors as many as fit; in an unknown mode nothing is.
    pub fn parsed(&self, mode: u32, rooms: Rooms) -> TextAnswer {
        let lexed = self.lexed(rooms.record_bytes);
        match self {
            _ if !modes::is_known(mode) => TextAnswer {
                lexed: Lexed {
                    refusal: modes::UNKNOWN_MODE,
                    ..Lexed::default()
                },
                ..TextAnswer::default()
            },
            Text::Tokens { judged, .. } if lexed.refusal == 0 => {
                let answer = judged.answer_in(rooms.event_words, rooms.error_words);
                TextAnswer {
                    lexed: Lexed {
                        refusal: answer.refusal,
                        place: answer.place,
                        ..lexed
                    },
                    events: answer.events,
                    errors: answer.errors,
                }
            }
            _ => TextAnswer {
                lexed,
                ..TextAnswer::default()
            },
        }
    }

    /// Whether the text fits, asked with so much room.
    pub fn verdict(&self, record_bytes: usize, event_words: usize) -> Verdict {
        let lexed = self.lexed(record_bytes);
        match self {
            Text::Tokens { judged, fits, .. } if lexed.refusal == 0 => {
                verdict(judged, lexed.records, *fits, event_words)
            }
            _ => Verdict {
                fits: false,
                refusal: lexed.refusal,
                place: lexed.place,
            },
        }
    }
}

/// The verdict on so many records that gave this: refusals 1 to 6 as they came, then 7
/// where there is room for fewer events than records.
pub fn verdict(judged: &Judged, records: usize, fits: bool, event_words: usize) -> Verdict {
    let (refusal, place) = match judged {
        Judged::Early(refusal) => (refusal.number, refusal.place),
        Judged::Walked(_, Some(record)) => (6, *record),
        Judged::Walked(_, None) if event_words / 4 < records => (7, 0),
        Judged::Walked(_, None) => (0, 0),
    };
    Verdict {
        fits: fits && refusal == 0,
        refusal,
        place,
    }
}
