//! Writing JSON without spaces.

use crate::Value;
use plain_std::alloc::AllocError;
use plain_std::vec::Vec;

/// Writes values and names into a list of bytes, with the commas between them.
pub struct Writer {
    out: Vec<u8>,
    is_after_value: bool,
}

impl Writer {
    /// Writes after what a list has.
    pub fn new(out: Vec<u8>) -> Writer {
        Writer {
            out,
            is_after_value: false,
        }
    }

    /// Returns the text.
    pub fn into_inner(self) -> Vec<u8> {
        self.out
    }

    /// Writes `{`.
    pub fn begin_object(&mut self) -> Result<(), AllocError> {
        self.begin("{")
    }

    /// Writes `}`.
    pub fn end_object(&mut self) -> Result<(), AllocError> {
        self.end("}")
    }

    /// Writes `[`.
    pub fn begin_array(&mut self) -> Result<(), AllocError> {
        self.begin("[")
    }

    /// Writes `]`.
    pub fn end_array(&mut self) -> Result<(), AllocError> {
        self.end("]")
    }

    /// Writes the name of a member.
    pub fn key(&mut self, name: &str) -> Result<(), AllocError> {
        self.put_comma()?;
        put_text(&mut self.out, name)?;
        self.is_after_value = false;
        self.out.push(b':')?;
        Ok(())
    }

    /// Writes a text.
    pub fn string(&mut self, text: &str) -> Result<(), AllocError> {
        self.put_comma()?;
        put_text(&mut self.out, text)?;
        self.is_after_value = true;
        Ok(())
    }

    /// Writes a number.
    pub fn u64(&mut self, number: u64) -> Result<(), AllocError> {
        let mut digits = [0; 20];
        let (mut at, mut rest) = (digits.len(), number);
        while at == digits.len() || rest > 0 {
            at -= 1;
            digits[at] = b'0' + (rest % 10) as u8;
            rest /= 10;
        }
        self.put_comma()?;
        self.out.extend_from_slice(&digits[at..])?;
        self.is_after_value = true;
        Ok(())
    }

    /// Writes a value.
    pub fn value(&mut self, value: &Value<'_>) -> Result<(), AllocError> {
        match value {
            Value::Null => self.word("null"),
            Value::Bool(true) => self.word("true"),
            Value::Bool(false) => self.word("false"),
            Value::Number(text) => self.word(text),
            Value::String(text) => self.string(text),
            Value::Array(items) => {
                self.begin_array()?;
                for item in items {
                    self.value(item)?;
                }
                self.end_array()
            }
            Value::Object(members) => {
                self.begin_object()?;
                for (name, value) in members {
                    self.key(name)?;
                    self.value(value)?;
                }
                self.end_object()
            }
        }
    }

    fn put_comma(&mut self) -> Result<(), AllocError> {
        if self.is_after_value {
            self.out.push(b',')?;
        }
        Ok(())
    }

    fn begin(&mut self, bracket: &str) -> Result<(), AllocError> {
        self.put_comma()?;
        self.is_after_value = false;
        self.out.extend_from_slice(bracket.as_bytes())
    }

    fn end(&mut self, bracket: &str) -> Result<(), AllocError> {
        self.is_after_value = true;
        self.out.extend_from_slice(bracket.as_bytes())
    }

    fn word(&mut self, word: &str) -> Result<(), AllocError> {
        self.put_comma()?;
        self.is_after_value = true;
        self.out.extend_from_slice(word.as_bytes())
    }
}

/// Writes a text in quotes, with the shortest escapes.
pub(crate) fn put_text(out: &mut Vec<u8>, text: &str) -> Result<(), AllocError> {
    let digit = |value: u8| b"0123456789abcdef"[usize::from(value)];
    out.push(b'"')?;
    for byte in text.bytes() {
        match byte {
            b'"' => out.extend_from_slice(b"\\\"")?,
            b'\\' => out.extend_from_slice(b"\\\\")?,
            8 => out.extend_from_slice(b"\\b")?,
            b'\t' => out.extend_from_slice(b"\\t")?,
            b'\n' => out.extend_from_slice(b"\\n")?,
            12 => out.extend_from_slice(b"\\f")?,
            b'\r' => out.extend_from_slice(b"\\r")?,
            0..=31 => {
                out.extend_from_slice(b"\\u00")?;
                out.extend_from_slice(&[digit(byte >> 4), digit(byte & 15)])?;
            }
            _ => out.push(byte)?,
        }
    }
    out.push(b'"')?;
    Ok(())
}

#[cfg(test)]
mod tests {
    use super::Writer;
    use crate::{Scratch, Value};
    use plain_std::alloc::Global;
    use plain_std::vec::Vec;

    #[test]
    fn a_value_is_written_as_it_was_read() {
        let text = r#" {"b": [1.50, -0, 1E5, {}, []], "a": "\u0001\n\u00e9/\"", "b": null,
            "": [[true], false]} "#;
        let mut scratch = Scratch::new(Global);
        let value = Value::from_slice(Global, text.as_bytes(), &mut scratch).unwrap();
        let mut out = Writer::new(Vec::new(Global));
        out.value(&value).unwrap();
        let expected =
            r#"{"b":[1.50,-0,1E5,{},[]],"a":"\u0001\né/\"","b":null,"":[[true],false]}"#;
        assert_eq!(out.into_inner().as_slice(), expected.as_bytes());
    }

    #[test]
    fn names_and_numbers_have_commas_between() {
        let mut out = Writer::new(Vec::new(Global));
        out.begin_array().unwrap();
        for number in [0, 7, 4_294_967_295, u64::MAX] {
            out.u64(number).unwrap();
        }
        out.begin_object().unwrap();
        out.key("a").unwrap();
        out.string("b").unwrap();
        out.key("c").unwrap();
        out.u64(10).unwrap();
        out.end_object().unwrap();
        out.end_array().unwrap();
        let expected = r#"[0,7,4294967295,18446744073709551615,{"a":"b","c":10}]"#;
        assert_eq!(out.into_inner().as_slice(), expected.as_bytes());
    }
}
