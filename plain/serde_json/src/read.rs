//! Reading (RFC 8259), in memory that may run out at each step.

use crate::tokens::{Reader, Token};
use crate::{Error, Map, Value};
use plain_std::alloc::{AllocError, Global};
use plain_std::vec::Vec;

/// How many lists and objects may lie within each other, as in the crate `serde_json`.
const MAX_DEPTH: usize = 127;

/// Reads a value that all of the text spells.
pub(crate) fn value_of(bytes: &[u8]) -> Result<Value, Error> {
    let text = std::str::from_utf8(bytes).map_err(|error| Error::at(bytes, error.valid_up_to()))?;
    let mut reader = Reader::new(text);
    let value = read(&mut reader, MAX_DEPTH)?;
    if reader.is_at_end() {
        Ok(value)
    } else {
        Err(reader.fault())
    }
}

fn read(reader: &mut Reader<'_>, depth: usize) -> Result<Value, Error> {
    match reader.next()? {
        Token::String(text) => Ok(Value::String(text)),
        Token::Number(Some(number)) => Ok(Value::Number(number)),
        Token::Bool(value) => Ok(Value::Bool(value)),
        Token::Null => Ok(Value::Null),
        Token::BeginArray if depth > 0 => Ok(Value::Array(read_items(reader, depth - 1)?)),
        Token::BeginObject if depth > 0 => Ok(Value::Object(read_members(reader, depth - 1)?)),
        _ => Err(reader.fault()),
    }
}

fn read_items(reader: &mut Reader<'_>, depth: usize) -> Result<Vec<Value>, Error> {
    let mut items = Vec::new(Global);
    while !reader.take_end_array() {
        items.push(read(reader, depth)?).map_err(AllocError::from)?;
    }
    Ok(items)
}

fn read_members(reader: &mut Reader<'_>, depth: usize) -> Result<Map, Error> {
    let mut members = Vec::new(Global);
    loop {
        let name = match reader.next()? {
            Token::Key(name) => name,
            Token::EndObject => return Ok(Map::of_last(members)?),
            _ => return Err(reader.fault()),
        };
        let member = (name, members.len(), read(reader, depth)?);
        members.push(member).map_err(AllocError::from)?;
    }
}
