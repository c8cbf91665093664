//! Tokens of the text, and a reader that asks for what is due.

use crate::case::LARGEST;
use crate::fault::Fault;

#[derive(Clone, Copy, Debug, PartialEq, Eq)]
pub enum Token<'a> {
    Mark(u8),
    Name(&'a [u8]),
    Number(&'a [u8]),
}

/// How many bytes at the beginning of `text` are digits.
fn digits(text: &[u8]) -> usize {
    text.iter().take_while(|byte| byte.is_ascii_digit()).count()
}

/// The length of the number that `text` begins with, 0 if it begins with none.
fn number_length(text: &[u8]) -> usize {
    let sign = usize::from(text.first() == Some(&b'-'));
    let whole = match text.get(sign) {
        Some(b'0') => 1,
        _ => digits(&text[sign..]),
    };
    if whole == 0 {
        return 0;
    }
    let mut length = sign + whole;
    if text.get(length) == Some(&b'.') {
        let fraction = digits(&text[length + 1..]);
        length += if fraction == 0 { 0 } else { 1 + fraction };
    }
    if matches!(text.get(length), Some(b'e' | b'E')) {
        let signed = usize::from(matches!(text.get(length + 1), Some(b'+' | b'-')));
        let exponent = digits(&text[length + 1 + signed..]);
        length += if exponent == 0 { 0 } else { 1 + signed + exponent };
    }
    length
}

/// The letters of the name that `text`, which begins with a quote, begins with.
fn name(text: &[u8]) -> Option<&[u8]> {
    let letters = text[1..].iter().take_while(|byte| byte.is_ascii_lowercase()).count();
    let closed = letters > 0 && text.get(1 + letters) == Some(&b'"');
    closed.then(|| &text[1..1 + letters])
}

/// The token that `text` begins with, and its length.
fn token(text: &[u8]) -> Option<(Token<'_>, usize)> {
    match text[0] {
        mark @ (b'{' | b'}' | b'[' | b']' | b':' | b',') => Some((Token::Mark(mark), 1)),
        b'"' => name(text).map(|letters| (Token::Name(letters), letters.len() + 2)),
        _ => match number_length(text) {
            0 => None,
            length => Some((Token::Number(&text[..length]), length)),
        },
    }
}

/// The value of a number that is written with digits alone and not too large.
fn plain(number: &[u8]) -> Option<u64> {
    let mut value = 0u64;
    for byte in number {
        if !byte.is_ascii_digit() {
            return None;
        }
        value = value * 10 + u64::from(byte - b'0');
        if value > LARGEST {
            return None;
        }
    }
    Some(value)
}

pub struct Reader<'a> {
    text: &'a [u8],
    place: usize,
}

impl<'a> Reader<'a> {
    pub fn new(text: &'a [u8]) -> Self {
        Reader { text, place: 0 }
    }

    /// The place behind the last token that was read.
    pub fn place(&self) -> usize {
        self.place
    }

    /// The next token with its place, or nothing at the end of the text.
    pub fn advance(&mut self) -> Result<Option<(usize, Token<'a>)>, Fault> {
        let white = |byte: &&u8| matches!(byte, b' ' | b'\t' | b'\n' | b'\r');
        self.place += self.text[self.place..].iter().take_while(white).count();
        let place = self.place;
        if place == self.text.len() {
            return Ok(None);
        }
        let (token, length) = token(&self.text[place..]).ok_or(Fault::byte(23, place))?;
        self.place += length;
        Ok(Some((place, token)))
    }

    /// The next token where one is due.
    fn due(&mut self) -> Result<(usize, Token<'a>), Fault> {
        self.advance()?.ok_or(Fault::byte(24, self.text.len()))
    }

    /// One of the given marks.
    pub fn one_of(&mut self, marks: &[u8]) -> Result<u8, Fault> {
        match self.due()? {
            (_, Token::Mark(mark)) if marks.contains(&mark) => Ok(mark),
            (place, _) => Err(Fault::byte(24, place)),
        }
    }

    pub fn mark(&mut self, mark: u8) -> Result<(), Fault> {
        self.one_of(&[mark]).map(|_| ())
    }

    /// One of the given names, told by its place among them.
    pub fn name(&mut self, names: &[&str]) -> Result<usize, Fault> {
        let (place, token) = self.due()?;
        names
            .iter()
            .position(|name| token == Token::Name(name.as_bytes()))
            .ok_or(Fault::byte(24, place))
    }

    pub fn number(&mut self) -> Result<u64, Fault> {
        match self.due()? {
            (place, Token::Number(number)) => plain(number).ok_or(Fault::byte(25, place)),
            (place, _) => Err(Fault::byte(24, place)),
        }
    }

    /// The end of the text.
    pub fn end(&mut self) -> Result<(), Fault> {
        match self.advance()? {
            None => Ok(()),
            Some((place, _)) => Err(Fault::byte(24, place)),
        }
    }
}

#[cfg(test)]
mod tests {
    use super::*;

    #[test]
    fn numbers_are_as_long_as_they_can_be() {
        let cases: [(&str, usize); 12] = [
            ("01", 1),
            ("1.", 1),
            ("1.5", 3),
            ("-", 0),
            ("-0", 2),
            ("+1", 0),
            (".5", 0),
            ("1e", 1),
            ("1e+", 1),
            ("1E+07,", 5),
            ("12.30e-4", 8),
            ("x", 0),
        ];
        for (text, length) in cases {
            assert_eq!(number_length(text.as_bytes()), length, "{text}");
        }
    }

    #[test]
    fn names_have_letters_only() {
        assert_eq!(name(b"\"top\":"), Some(&b"top"[..]));
        for text in ["\"\"", "\"Top\"", "\"top", "\"t p\"", "\""] {
            assert_eq!(name(text.as_bytes()), None, "{text}");
        }
    }
}
