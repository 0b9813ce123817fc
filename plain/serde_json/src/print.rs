//! Printing, without spaces.

use crate::{Map, Number, Value};
use std::fmt::{Display, Error, Formatter, Result, Write};

impl Display for Value {
    fn fmt(&self, f: &mut Formatter<'_>) -> Result {
        match self {
            Value::Null => f.write_str("null"),
            Value::Bool(value) => value.fmt(f),
            Value::Number(Number::Positive(number)) => number.fmt(f),
            Value::Number(Number::Negative(number)) => number.fmt(f),
            Value::Number(Number::Float(number)) => write_float(f, *number),
            Value::String(text) => write_text(f, text),
            Value::Array(items) => write_items(f, items),
            Value::Object(map) => write_members(f, map),
        }
    }
}

/// The text of a number with an exponent, which is at most 24 bytes long.
#[derive(Default)]
struct Digits {
    bytes: [u8; 32],
    length: usize,
}

impl Write for Digits {
    fn write_str(&mut self, text: &str) -> Result {
        let end = self.length + text.len();
        let place = self.bytes.get_mut(self.length..end).ok_or(Error)?;
        place.copy_from_slice(text.as_bytes());
        self.length = end;
        Ok(())
    }
}

/// Writes the shortest digits that are read as the number: without an exponent from 0.00001 up to
/// 10^16, else with one that has a sign.
fn write_float(f: &mut Formatter<'_>, number: f64) -> Result {
    let mut text = Digits::default();
    write!(text, "{:e}", number.abs())?;
    let text = std::str::from_utf8(&text.bytes[..text.length]).map_err(|_| Error)?;
    let (mantissa, exponent) = text.split_once('e').ok_or(Error)?;
    let exponent: i32 = exponent.parse().map_err(|_| Error)?;
    let (first, rest) = mantissa.split_at(1);
    let rest = rest.strip_prefix('.').unwrap_or("");
    if number.is_sign_negative() {
        f.write_char('-')?;
    }
    match exponent {
        -5..=-1 => {
            f.write_str("0.")?;
            for _ in exponent..-1 {
                f.write_char('0')?;
            }
            f.write_str(first)?;
            f.write_str(rest)
        }
        0..=15 => {
            let whole = exponent as usize;
            f.write_str(first)?;
            for index in 0..whole {
                f.write_str(rest.get(index..=index).unwrap_or("0"))?;
            }
            f.write_char('.')?;
            f.write_str(rest.get(whole..).filter(|rest| !rest.is_empty()).unwrap_or("0"))
        }
        _ => {
            f.write_str(first)?;
            if !rest.is_empty() {
                write!(f, ".{rest}")?;
            }
            write!(f, "e{exponent:+}")
        }
    }
}

fn write_items(f: &mut Formatter<'_>, items: &[Value]) -> Result {
    f.write_char('[')?;
    for (index, item) in items.iter().enumerate() {
        if index > 0 {
            f.write_char(',')?;
        }
        item.fmt(f)?;
    }
    f.write_char(']')
}

fn write_members(f: &mut Formatter<'_>, map: &Map) -> Result {
    f.write_char('{')?;
    for (index, (name, value)) in map.0.iter().enumerate() {
        if index > 0 {
            f.write_char(',')?;
        }
        write_text(f, name)?;
        f.write_char(':')?;
        value.fmt(f)?;
    }
    f.write_char('}')
}

fn write_text(f: &mut Formatter<'_>, text: &str) -> Result {
    f.write_char('"')?;
    for character in text.chars() {
        match character {
            '"' => f.write_str("\\\"")?,
            '\\' => f.write_str("\\\\")?,
            '\u{8}' => f.write_str("\\b")?,
            '\u{c}' => f.write_str("\\f")?,
            '\n' => f.write_str("\\n")?,
            '\r' => f.write_str("\\r")?,
            '\t' => f.write_str("\\t")?,
            '\0'..='\u{1f}' => write!(f, "\\u{:04x}", u32::from(character))?,
            _ => f.write_char(character)?,
        }
    }
    f.write_char('"')
}
