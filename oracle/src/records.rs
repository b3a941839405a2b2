//! Token records, 6 bytes each: checks 1 to 5 of document 01, and the tokens they give.

use crate::lexer::Token;
use crate::lexer::TokenKind;
use crate::Span;

/// The most records a list may have.
pub const MAX_RECORDS: usize = 65_536;
/// The highest place a token may end at.
pub const MAX_PLACE: u64 = 16_777_216;

/// A refusal by number, and its place.
#[derive(Copy, Clone, PartialEq, Eq, Debug)]
pub struct Refusal {
    pub number: u32,
    pub place: usize,
}

/// The tokens of a list of records, or the first refusal among 1 to 5.
pub fn tokens(base: u32, bytes: &[u8]) -> Result<Vec<Token>, Refusal> {
    let refuse = |number, place| Err(Refusal { number, place });
    let count = bytes.len() / 6;
    if bytes.len() % 6 != 0 {
        return refuse(1, count);
    }
    if count > MAX_RECORDS {
        return refuse(2, MAX_RECORDS);
    }
    let mut start = u64::from(base);
    if start > MAX_PLACE {
        return refuse(5, 0);
    }
    let mut tokens = Vec::with_capacity(count);
    for (record, fields) in bytes.chunks_exact(6).enumerate() {
        let length = u32::from_le_bytes([fields[0], fields[1], fields[2], fields[3]]);
        let Some(kind) = TokenKind::from_number(u16::from_le_bytes([fields[4], fields[5]])) else {
            return refuse(3, record);
        };
        if !length_is_right(kind, length) {
            return refuse(4, record);
        }
        let end = start + u64::from(length);
        if end > MAX_PLACE {
            return refuse(5, record);
        }
        tokens.push(Token::new(
            kind,
            Span::new_unchecked(start as usize, end as usize),
        ));
        start = end;
    }
    Ok(tokens)
}

/// Whether a token of this kind may have this length.
fn length_is_right(kind: TokenKind, length: u32) -> bool {
    match kind.number() {
        1..=7 => length == 1,
        16 => length == 0,
        _ => length >= 1,
    }
}

/// Appends one record, whether right or not.
pub fn push(bytes: &mut Vec<u8>, kind: u16, length: u32) {
    bytes.extend_from_slice(&length.to_le_bytes());
    bytes.extend_from_slice(&kind.to_le_bytes());
}

/// The records of these kinds and lengths.
pub fn from_pairs(pairs: &[(u16, u32)]) -> Vec<u8> {
    let mut bytes = Vec::with_capacity(pairs.len() * 6);
    for (kind, length) in pairs {
        push(&mut bytes, *kind, *length);
    }
    bytes
}
