//! Lines and columns as an editor counts them: all line breaks count, those inside strings too, and a column is a character.

/// The byte order mark, which is no part of the first line.
const MARK: &[u8] = b"\xef\xbb\xbf";

/// Where a byte of a text is, for a person.
#[derive(Clone, Copy, Debug, PartialEq, Eq)]
pub struct Place {
    /// The byte itself, from 0.
    pub byte: usize,
    /// The line, from 1.
    pub line: usize,
    /// The character on that line, from 1.
    pub column: usize,
    /// The byte at which the line starts.
    pub start: usize,
}

/// The places of these bytes of a text, in the order in which they are given. The text is passed once, whatever their order.
pub fn places(text: &[u8], bytes: &[usize]) -> Vec<Place> {
    let mut order: Vec<usize> = (0..bytes.len()).collect();
    order.sort_by_key(|number| bytes[*number]);
    let start = if text.starts_with(MARK) { MARK.len() } else { 0 };
    let mut at = Place { byte: start, line: 1, column: 1, start };
    let mut found = vec![at; bytes.len()];
    for number in order {
        while at.byte < bytes[number].min(text.len()) {
            step(text, &mut at);
        }
        found[number] = at;
    }
    found
}

/// Goes one byte on. A line ends behind LF, behind CR with LF, and behind CR alone, as it does for the parser.
fn step(text: &[u8], at: &mut Place) {
    let byte = text[at.byte];
    at.byte += 1;
    if byte == b'\n' || byte == b'\r' && text.get(at.byte) != Some(&b'\n') {
        *at = Place { byte: at.byte, line: at.line + 1, column: 1, start: at.byte };
    } else if !text.get(at.byte).is_some_and(|next| is_within(*next)) {
        at.column += 1;
    }
}

/// Whether the byte goes on with a character that began before it.
pub fn is_within(byte: u8) -> bool {
    byte & 0xc0 == 0x80
}
