//! A short notation for lists of records: one character a token, each of one byte.

use deckmarten::{Records, Token, TokenKind};

/// `.` `=` `,` `[` `]` `{` `}` stand for themselves, a space for Whitespace, `#` for a Comment, a line's end for a Newline, `'` and `"`
/// for a literal and a basic string, `L` and `B` for multi-line ones, `$` for the Eof, and any other character for an Atom.
pub fn records(text: &str) -> Records {
    text.chars().map(token).collect()
}

fn token(character: char) -> Token {
    use TokenKind::*;
    let kind = match character {
        '.' => Dot,
        '=' => Equals,
        ',' => Comma,
        '[' => LeftSquareBracket,
        ']' => RightSquareBracket,
        '{' => LeftCurlyBracket,
        '}' => RightCurlyBracket,
        ' ' => Whitespace,
        '#' => Comment,
        '\n' => Newline,
        '\'' => LiteralString,
        '"' => BasicString,
        'L' => MlLiteralString,
        'B' => MlBasicString,
        '$' => return Token::new(Eof, 0),
        _ => Atom,
    };
    Token::new(kind, 1)
}
