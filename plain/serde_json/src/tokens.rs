//! The tokens of a text. A token that is refused stays the next one, so that an error has its place.

use crate::{Error, Number};
use plain_std::alloc::{AllocError, Global};
use plain_std::string::String;

/// A token.
pub(crate) enum Token {
    BeginObject,
    EndObject,
    BeginArray,
    EndArray,
    /// A text that a colon follows, which is a part of the token.
    Key(String),
    String(String),
    /// A number, unless it is too large.
    Number(Option<Number>),
    Bool(bool),
    Null,
}

/// What may come next.
#[derive(Clone, Copy, PartialEq, Eq)]
enum Place {
    /// A value or a closing bracket.
    Fresh,
    /// A value.
    AfterComma,
    /// A closing bracket.
    AfterValue,
}

/// A text, and how far its tokens are read.
pub(crate) struct Reader<'a> {
    text: &'a str,
    /// The start of the next token: no space.
    at: usize,
    place: Place,
}

impl<'a> Reader<'a> {
    /// Begins.
    pub(crate) fn new(text: &'a str) -> Reader<'a> {
        let mut reader = Reader {
            text,
            at: 0,
            place: Place::Fresh,
        };
        reader.go_to(0);
        reader
    }

    /// Returns whether the whole text is read.
    pub(crate) fn is_at_end(&self) -> bool {
        self.at == self.text.len() && self.place != Place::AfterComma
    }

    fn byte_at(&self, at: usize) -> Option<u8> {
        self.text.as_bytes().get(at).copied()
    }

    /// Passes what was read up to here, and the space after it.
    fn go_to(&mut self, at: usize) {
        self.at = at;
        while matches!(self.byte_at(self.at), Some(b' ' | b'\t' | b'\n' | b'\r')) {
            self.at += 1;
        }
    }

    /// Passes a value, and the comma that may follow it.
    fn after_value(&mut self, end: usize) {
        self.go_to(end);
        self.place = Place::AfterValue;
        if self.byte_at(self.at) == Some(b',') {
            self.go_to(self.at + 1);
            self.place = Place::AfterComma;
        }
    }

    /// Passes a bracket that ends a list, if that is next.
    pub(crate) fn take_end_array(&mut self) -> bool {
        let found = self.place != Place::AfterComma && self.byte_at(self.at) == Some(b']');
        if found {
            self.after_value(self.at + 1);
        }
        found
    }

    /// Reads the next token.
    pub(crate) fn next(&mut self) -> Result<Token, Error> {
        let byte = self.byte_at(self.at).ok_or_else(|| self.fault())?;
        if matches!(byte, b'}' | b']') {
            if self.place == Place::AfterComma {
                return Err(self.fault());
            }
            self.after_value(self.at + 1);
            return Ok(if byte == b'}' {
                Token::EndObject
            } else {
                Token::EndArray
            });
        }
        if self.place == Place::AfterValue {
            return Err(self.fault());
        }
        match byte {
            b'"' => self.string(),
            b'{' | b'[' => {
                self.go_to(self.at + 1);
                self.place = Place::Fresh;
                Ok(if byte == b'{' {
                    Token::BeginObject
                } else {
                    Token::BeginArray
                })
            }
            b't' => self.literal("true", Token::Bool(true)),
            b'f' => self.literal("false", Token::Bool(false)),
            b'n' => self.literal("null", Token::Null),
            _ => self.number(),
        }
    }

    /// Returns the error that the text is not JSON from the next token on.
    pub(crate) fn fault(&self) -> Error {
        Error::at(self.text.as_bytes(), self.at)
    }

    /// Returns whether a word or a number may end here.
    fn is_delimited(&self, end: usize) -> bool {
        matches!(
            self.byte_at(end),
            None | Some(b'{' | b'}' | b'[' | b']' | b':' | b',' | b' ' | b'\t' | b'\n' | b'\r')
        )
    }

    fn literal(&mut self, word: &str, token: Token) -> Result<Token, Error> {
        let end = self.at + word.len();
        if !self.text[self.at..].starts_with(word) || !self.is_delimited(end) {
            return Err(self.fault());
        }
        self.after_value(end);
        Ok(token)
    }

    /// Returns the end of the digits from here on, of which there is one.
    fn digits_end(&self, start: usize) -> Option<usize> {
        let mut end = start;
        while matches!(self.byte_at(end), Some(b'0'..=b'9')) {
            end += 1;
        }
        (end > start).then_some(end)
    }

    /// Returns the end of the whole part of a number, and that of the number.
    fn number_end(&self) -> Option<(usize, usize)> {
        let start = self.at + usize::from(self.byte_at(self.at) == Some(b'-'));
        let whole = match self.byte_at(start) {
            Some(b'0') => start + 1,
            _ => self.digits_end(start)?,
        };
        let mut end = whole;
        if self.byte_at(end) == Some(b'.') {
            end = self.digits_end(end + 1)?;
        }
        if matches!(self.byte_at(end), Some(b'e' | b'E')) {
            let sign = usize::from(matches!(self.byte_at(end + 1), Some(b'+' | b'-')));
            end = self.digits_end(end + 1 + sign)?;
        }
        Some((whole, end))
    }

    fn number(&mut self) -> Result<Token, Error> {
        let (whole, end) = self.number_end().ok_or_else(|| self.fault())?;
        if !self.is_delimited(end) {
            return Err(self.fault());
        }
        let number = number_of(&self.text[self.at..end], whole == end);
        self.after_value(end);
        Ok(Token::Number(number))
    }

    fn string(&mut self) -> Result<Token, Error> {
        let (text, end) = match self.content(self.at + 1)? { Some((text, end)) => (text, end), _ => {
            return Err(self.fault());
        } };
        self.go_to(end);
        if self.byte_at(self.at) == Some(b':') {
            self.go_to(self.at + 1);
            self.place = Place::Fresh;
            return Ok(Token::Key(text));
        }
        self.after_value(end);
        Ok(Token::String(text))
    }

    /// Reads a text after its quote, and returns it with its end, or nothing if it is refused.
    fn content(&self, start: usize) -> Result<Option<(String, usize)>, AllocError> {
        let (mut text, mut at) = (String::new(Global), start);
        loop {
            let run = at;
            while !matches!(self.byte_at(at), None | Some(b'"' | b'\\' | 0..=31)) {
                at += 1;
            }
            text.push_str(&self.text[run..at])?;
            match self.byte_at(at) {
                Some(b'"') => return Ok(Some((text, at + 1))),
                Some(b'\\') => {}
                _ => return Ok(None),
            }
            let (character, end) = match self.escape(at + 1) { Some((character, end)) => (character, end), _ => {
                return Ok(None);
            } };
            text.push(character)?;
            at = end;
        }
    }

    /// Returns the character of an escape after its backslash, and the end of the escape.
    fn escape(&self, at: usize) -> Option<(char, usize)> {
        let character = match self.byte_at(at)? {
            byte @ (b'"' | b'\\' | b'/') => char::from(byte),
            b'b' => '\u{8}',
            b'f' => '\u{c}',
            b'n' => '\n',
            b'r' => '\r',
            b't' => '\t',
            b'u' => return self.unicode(at + 1),
            _ => return None,
        };
        Some((character, at + 1))
    }

    /// Returns the character of four hexadecimal digits, or of a surrogate pair, and its end.
    fn unicode(&self, at: usize) -> Option<(char, usize)> {
        let high = self.unit(at)?;
        if !(0xd800..0xdc00).contains(&high) {
            return Some((char::from_u32(high)?, at + 4));
        }
        if self.byte_at(at + 4) != Some(b'\\') || self.byte_at(at + 5) != Some(b'u') {
            return None;
        }
        let low = self.unit(at + 6)?;
        if !(0xdc00..0xe000).contains(&low) {
            return None;
        }
        let code = 0x10000 + ((high - 0xd800) << 10) + (low - 0xdc00);
        Some((char::from_u32(code)?, at + 10))
    }

    fn unit(&self, at: usize) -> Option<u32> {
        let mut unit = 0;
        for index in at..at + 4 {
            unit = 16 * unit + char::from(self.byte_at(index)?).to_digit(16)?;
        }
        Some(unit)
    }
}

/// Returns a number by its text, unless it is too large. `is_whole` says that it has no point and
/// no exponent.
fn number_of(text: &str, is_whole: bool) -> Option<Number> {
    if is_whole {
        if let Ok(number) = text.parse() {
            return Some(Number::Positive(number));
        }
        if let Ok(number @ i64::MIN..=-1) = text.parse() {
            return Some(Number::Negative(number));
        }
    }
    let number: f64 = text.parse().ok()?;
    number.is_finite().then_some(Number::Float(number))
}
