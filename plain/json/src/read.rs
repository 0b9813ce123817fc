//! Reading JSON as a tree over the text.

use plain_std::alloc::{AllocError, AllocFailed, Global};
use plain_std::vec::Vec;

/// Arrays and objects nest at most this deep.
const MAX_DEPTH: usize = 128;

/// Why a text is not read.
#[derive(Clone, Copy, Debug, PartialEq, Eq)]
pub enum Error {
    /// The text is not JSON.
    Invalid,
    /// Out of memory.
    OutOfMemory,
}

impl From<AllocError> for Error {
    fn from(_: AllocError) -> Error {
        Error::OutOfMemory
    }
}

impl<T> From<AllocFailed<T>> for Error {
    fn from(_: AllocFailed<T>) -> Error {
        Error::OutOfMemory
    }
}

/// Room for texts with escapes, without these.
pub struct Scratch {
    text: Vec<u8>,
    ends: Vec<usize>,
}

impl Scratch {
    /// Takes no memory.
    pub fn new(alloc: Global) -> Scratch {
        Scratch {
            text: Vec::new(alloc),
            ends: Vec::new(alloc),
        }
    }

    /// Keeps the texts with escapes of a whole text.
    fn fill(&mut self, text: &str) -> Result<(), Error> {
        self.text.clear();
        self.ends.clear();
        let bytes = text.as_bytes();
        let mut at = 0;
        while let Some(byte) = bytes.get(at) {
            at += 1;
            if *byte == b'"' {
                let (end, is_plain) = content_end(bytes, at).ok_or(Error::Invalid)?;
                if !is_plain {
                    self.unescape(&text[at..end])?;
                    self.ends.push(self.text.len())?;
                }
                at = end + 1;
            }
        }
        Ok(())
    }

    fn unescape(&mut self, content: &str) -> Result<(), Error> {
        let mut rest = content;
        while let Some(at) = rest.find('\\') {
            self.text.extend_from_slice(&rest.as_bytes()[..at])?;
            let (character, length) = escape(&rest.as_bytes()[at + 1..]).ok_or(Error::Invalid)?;
            let mut room = [0; 4];
            self.text
                .extend_from_slice(character.encode_utf8(&mut room).as_bytes())?;
            rest = &rest[at + 1 + length..];
        }
        self.text.extend_from_slice(rest.as_bytes())?;
        Ok(())
    }
}

/// Returns where a text ends, and whether it has no escapes.
fn content_end(bytes: &[u8], start: usize) -> Option<(usize, bool)> {
    let (mut at, mut is_plain) = (start, true);
    loop {
        match bytes.get(at)? {
            b'"' => return Some((at, is_plain)),
            b'\\' => {
                is_plain = false;
                at += 2;
            }
            0..=31 => return None,
            _ => at += 1,
        }
    }
}

/// Returns the character of an escape after its backslash, and the length of the escape.
fn escape(bytes: &[u8]) -> Option<(char, usize)> {
    let character = match bytes.first()? {
        byte @ (b'"' | b'\\' | b'/') => char::from(*byte),
        b'b' => '\u{8}',
        b'f' => '\u{c}',
        b'n' => '\n',
        b'r' => '\r',
        b't' => '\t',
        b'u' => {
            let high = unit(bytes, 1)?;
            if !(0xd800..0xdc00).contains(&high) {
                return Some((char::from_u32(high)?, 5));
            }
            let low = unit(bytes, 7)?;
            if bytes[5..7] != *b"\\u" || !(0xdc00..0xe000).contains(&low) {
                return None;
            }
            let code = 0x10000 + ((high - 0xd800) << 10) + (low - 0xdc00);
            return Some((char::from_u32(code)?, 11));
        }
        _ => return None,
    };
    Some((character, 1))
}

/// Returns the number of four hexadecimal digits.
fn unit(bytes: &[u8], at: usize) -> Option<u32> {
    let mut unit = 0;
    for index in at..at + 4 {
        unit = 16 * unit + char::from(*bytes.get(index)?).to_digit(16)?;
    }
    Some(unit)
}

/// A value. Its texts are borrowed, and a number stays text.
#[derive(Debug)]
pub enum Value<'a> {
    /// `null`.
    Null,
    /// `true` or `false`.
    Bool(bool),
    /// A number, as it is written.
    Number(&'a str),
    /// A text.
    String(&'a str),
    /// Values in their order.
    Array(Vec<Value<'a>>),
    /// Names and values in their order.
    Object(Vec<(&'a str, Value<'a>)>),
}

impl<'a> Value<'a> {
    /// Reads the value of a text.
    pub fn from_slice(
        alloc: Global,
        bytes: &'a [u8],
        scratch: &'a mut Scratch,
    ) -> Result<Value<'a>, Error> {
        let text = std::str::from_utf8(bytes).map_err(|_| Error::Invalid)?;
        scratch.fill(text)?;
        let plain = std::str::from_utf8(scratch.text.as_slice()).map_err(|_| Error::Invalid)?;
        let mut reader = Reader {
            alloc,
            text,
            at: 0,
            plain,
            ends: scratch.ends.as_slice(),
            start: 0,
        };
        let value = reader.value(MAX_DEPTH)?;
        reader.pass_space();
        if reader.at == text.len() {
            Ok(value)
        } else {
            Err(Error::Invalid)
        }
    }

    /// Returns the text of a number.
    pub fn as_number(&self) -> Option<&'a str> {
        match self {
            Value::Number(text) => Some(text),
            _ => None,
        }
    }

    /// Returns a text.
    pub fn as_str(&self) -> Option<&'a str> {
        match self {
            Value::String(text) => Some(text),
            _ => None,
        }
    }

    /// Returns the last member of a name.
    pub fn get(&self, name: &str) -> Option<&Value<'a>> {
        match self {
            Value::Object(members) => members.iter().rev().find(|pair| pair.0 == name),
            _ => None,
        }
        .map(|pair| &pair.1)
    }
}

/// A text, and how far it is read.
struct Reader<'a> {
    alloc: Global,
    text: &'a str,
    at: usize,
    /// The texts with escapes that are not read yet end here, and the first of them starts there.
    plain: &'a str,
    ends: &'a [usize],
    start: usize,
}

impl<'a> Reader<'a> {
    fn byte(&self) -> Option<u8> {
        self.text.as_bytes().get(self.at).copied()
    }

    fn pass_space(&mut self) {
        while matches!(self.byte(), Some(b' ' | b'\t' | b'\n' | b'\r')) {
            self.at += 1;
        }
    }

    /// Passes a byte after space, if it is next.
    fn takes(&mut self, byte: u8) -> bool {
        self.pass_space();
        let found = self.byte() == Some(byte);
        self.at += usize::from(found);
        found
    }

    fn value(&mut self, depth: usize) -> Result<Value<'a>, Error> {
        self.pass_space();
        match self.byte().ok_or(Error::Invalid)? {
            b'{' => self.object(depth.checked_sub(1).ok_or(Error::Invalid)?),
            b'[' => self.array(depth.checked_sub(1).ok_or(Error::Invalid)?),
            b'"' => Ok(Value::String(self.string()?)),
            _ => self.word(),
        }
    }

    fn array(&mut self, depth: usize) -> Result<Value<'a>, Error> {
        self.at += 1;
        let mut items = Vec::new(self.alloc);
        if self.takes(b']') {
            return Ok(Value::Array(items));
        }
        loop {
            items.push(self.value(depth)?)?;
            if self.takes(b']') {
                return Ok(Value::Array(items));
            }
            if !self.takes(b',') {
                return Err(Error::Invalid);
            }
        }
    }

    fn object(&mut self, depth: usize) -> Result<Value<'a>, Error> {
        self.at += 1;
        let mut members = Vec::new(self.alloc);
        if self.takes(b'}') {
            return Ok(Value::Object(members));
        }
        loop {
            self.pass_space();
            let name = self.string()?;
            if !self.takes(b':') {
                return Err(Error::Invalid);
            }
            members.push((name, self.value(depth)?))?;
            if self.takes(b'}') {
                return Ok(Value::Object(members));
            }
            if !self.takes(b',') {
                return Err(Error::Invalid);
            }
        }
    }

    fn string(&mut self) -> Result<&'a str, Error> {
        if self.byte() != Some(b'"') {
            return Err(Error::Invalid);
        }
        let start = self.at + 1;
        let (end, is_plain) = content_end(self.text.as_bytes(), start).ok_or(Error::Invalid)?;
        self.at = end + 1;
        if is_plain {
            return Ok(&self.text[start..end]);
        }
        let (end, later) = match self.ends { [end, later @ ..] => (end, later), _ => {
            return Err(Error::Invalid);
        } };
        let text = &self.plain[self.start..*end];
        (self.start, self.ends) = (*end, later);
        Ok(text)
    }

    /// Reads a number or a literal.
    fn word(&mut self) -> Result<Value<'a>, Error> {
        let rest = &self.text[self.at..];
        let is_end = |byte: u8| b"{}[]:, \t\n\r".contains(&byte);
        let end = rest.bytes().position(is_end).unwrap_or(rest.len());
        let word = &rest[..end];
        self.at += end;
        match word {
            "null" => Ok(Value::Null),
            "true" => Ok(Value::Bool(true)),
            "false" => Ok(Value::Bool(false)),
            _ if is_number(word) => Ok(Value::Number(word)),
            _ => Err(Error::Invalid),
        }
    }
}

/// Returns the text after its digits, of which there is one.
fn after_digits(text: &str) -> Option<&str> {
    let rest = text.trim_start_matches(|c: char| c.is_ascii_digit());
    (rest.len() < text.len()).then_some(rest)
}

/// Returns whether a word is a number.
fn is_number(word: &str) -> bool {
    let whole = word.strip_prefix('-').unwrap_or(word);
    let after_whole = whole.strip_prefix('0').or_else(|| after_digits(whole));
    let after_fraction = after_whole.and_then(|rest| match rest.strip_prefix('.') {
        Some(digits) => after_digits(digits),
        None => Some(rest),
    });
    let after_exponent = after_fraction.and_then(|rest| match rest.strip_prefix(['e', 'E']) {
        Some(power) => after_digits(power.strip_prefix(['+', '-']).unwrap_or(power)),
        None => Some(rest),
    });
    after_exponent == Some("")
}

#[cfg(test)]
mod tests {
    use super::{Error, Scratch, Value};
    use plain_std::alloc::Global;

    #[test]
    fn a_text_is_read_as_its_value() {
        let mut scratch = Scratch::new(Global);
        let text =
            br#" {"a\n": [1, -0.5e+3, true, null, {}], "b": "\u00e9\ud83d\ude00\\", "b": "c"} "#;
        let value = Value::from_slice(Global, text, &mut scratch).unwrap();
        let members = match &value { Value::Object(members) => members, _ => {
            panic!()
        } };
        assert_eq!(members[0].0, "a\n");
        let items = match &members[0].1 { Value::Array(items) => items, _ => {
            panic!()
        } };
        assert_eq!(items.len(), 5);
        assert_eq!(items[1].as_number(), Some("-0.5e+3"));
        assert_eq!(members[1].1.as_str(), Some("\u{e9}\u{1f600}\\"));
        assert_eq!(value.get("b").and_then(Value::as_str), Some("c"));
    }

    #[test]
    fn other_texts_are_refused() {
        let deep = format!("{}{}", "[".repeat(129), "]".repeat(129));
        let texts = [
            "",
            "{",
            "[1,]",
            "{\"a\" 1}",
            "{1:2}",
            "01",
            "1.",
            "+1",
            "\"\\ud800\"",
            "\"\t\"",
            "nul",
            "[1]2",
            "{\"a\":1,}",
            "\"\\x\"",
            "\"",
            &deep,
        ];
        for text in texts {
            let mut scratch = Scratch::new(Global);
            let read = Value::from_slice(Global, text.as_bytes(), &mut scratch);
            assert!(matches!(read, Err(Error::Invalid)), "{text}");
        }
        let mut scratch = Scratch::new(Global);
        assert!(Value::from_slice(Global, &deep.as_bytes()[1..257], &mut scratch).is_ok());
    }
}
