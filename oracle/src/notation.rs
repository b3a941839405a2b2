//! A test notation for token lists. It is not the lexer, and says nothing about
//! which tokens a TOML text has.
//!
//! Brackets, `=`, `,` and `.` are themselves; a run of spaces is Whitespace; a
//! newline, also written as backslash and n, is Newline; `#` to the end of the
//! line is Comment; "..." and '...' are strings, in triple quotes the multi-line
//! ones, unfinished ones going to the end; any other run is an Atom.

use crate::lexer::TokenKind;

/// The kinds and lengths of a text in this notation, with a final Eof if wanted.
pub fn pairs(text: &str, eof: bool) -> Vec<(u16, u32)> {
    let text = text.replace("\\n", "\n");
    let mut rest = text.as_str();
    let mut pairs = Vec::new();
    while !rest.is_empty() {
        let (kind, length) = first(rest);
        pairs.push((kind.number(), length as u32));
        rest = &rest[length..];
    }
    if eof {
        pairs.push((TokenKind::Eof.number(), 0));
    }
    pairs
}

/// The kind and length of the first token.
fn first(text: &str) -> (TokenKind, usize) {
    if let Some(kind) = text.chars().next().and_then(single) {
        return (kind, 1);
    }
    let until = |end: Option<usize>| end.unwrap_or(text.len());
    match text.as_bytes()[0] {
        b' ' => (TokenKind::Whitespace, until(text.find(|c| c != ' '))),
        b'#' => (TokenKind::Comment, until(text.find('\n'))),
        b'"' => quoted(text, "\"", TokenKind::BasicString, TokenKind::MlBasicString),
        b'\'' => quoted(
            text,
            "'",
            TokenKind::LiteralString,
            TokenKind::MlLiteralString,
        ),
        _ => (TokenKind::Atom, until(text.find(ends_atom))),
    }
}

/// The kind of a token that is one character by itself.
fn single(c: char) -> Option<TokenKind> {
    match c {
        '.' => Some(TokenKind::Dot),
        '=' => Some(TokenKind::Equals),
        ',' => Some(TokenKind::Comma),
        '[' => Some(TokenKind::LeftSquareBracket),
        ']' => Some(TokenKind::RightSquareBracket),
        '{' => Some(TokenKind::LeftCurlyBracket),
        '}' => Some(TokenKind::RightCurlyBracket),
        '\n' => Some(TokenKind::Newline),
        _ => None,
    }
}

/// Whether an Atom ends before this character.
fn ends_atom(c: char) -> bool {
    single(c).is_some() || matches!(c, ' ' | '#' | '"' | '\'')
}

/// A string in single or triple quotes.
fn quoted(text: &str, mark: &str, short: TokenKind, long: TokenKind) -> (TokenKind, usize) {
    let triple = mark.repeat(3);
    let (kind, mark) = if text.starts_with(&triple) {
        (long, triple.as_str())
    } else {
        (short, mark)
    };
    let close = text[mark.len()..].find(mark);
    (
        kind,
        close.map_or(text.len(), |place| place + 2 * mark.len()),
    )
}

#[cfg(test)]
mod tests {
    use super::pairs;

    #[test]
    fn each_kind_has_a_notation() {
        let found = pairs(".=,[]{}  #c\n'l'\"b\"'''m'''\"\"\"n\"\"\"atom", true);
        let kinds: Vec<u16> = found.iter().map(|pair| pair.0).collect();
        assert_eq!(kinds, (1..=16).collect::<Vec<u16>>());
        let lengths: Vec<u32> = found.iter().map(|pair| pair.1).collect();
        assert_eq!(lengths, [1, 1, 1, 1, 1, 1, 1, 2, 2, 1, 3, 3, 7, 7, 4, 0]);
    }

    #[test]
    fn written_newlines_and_no_eof() {
        assert_eq!(pairs("a\\n", false), [(15, 1), (10, 1)]);
        assert_eq!(pairs("", false), []);
        assert_eq!(pairs("'a", false), [(11, 2)]);
    }
}
