//! JSON as the crate `serde_json` has it, where memory may run out: that crate ends the process then.
//! The tests compare both. The place of an error is that which Rattle's crate of this name gives: the
//! start of the token that is refused, or of the next one after a token in a wrong place.

#![deny(unsafe_op_in_unsafe_fn)]

mod print;
mod read;
mod tokens;

use plain_std::alloc::{AllocError, Global};
use plain_std::ext::TryClone;
use plain_std::string::String;
use plain_std::vec::Vec;

/// A JSON value.
pub enum Value {
    /// `null`.
    Null,
    /// `true` or `false`.
    Bool(bool),
    /// A number.
    Number(Number),
    /// A text.
    String(String),
    /// A list.
    Array(Vec<Value>),
    /// The members of an object.
    Object(Map),
}

/// A number. One written with a point or an exponent is a float, and so is one that fits no whole
/// number, and `-0`.
#[derive(Clone, Copy, Debug, PartialEq)]
pub enum Number {
    /// 0 or more.
    Positive(u64),
    /// Less than 0.
    Negative(i64),
    /// A finite one.
    Float(f64),
}

/// The members of an object, by name, in the order of the names.
pub struct Map<K = String, V = Value>(Vec<(K, V)>);

/// Why there is no value.
#[derive(Clone, Copy, Debug, PartialEq, Eq)]
pub enum Error {
    /// Memory ran out.
    Memory,
    /// The text is not JSON.
    Text {
        /// The line of the error, counted from 1.
        line: usize,
        /// Its column in bytes.
        column: usize,
    },
}

impl Error {
    /// Returns the error that a text is not JSON from this offset on.
    fn at(text: &[u8], offset: usize) -> Error {
        let before = &text[..offset];
        let line_start = before
            .iter()
            .rposition(|byte| *byte == b'\n')
            .map_or(0, |at| at + 1);
        Error::Text {
            line: 1 + before.iter().filter(|byte| **byte == b'\n').count(),
            column: offset - line_start + usize::from(offset < text.len()),
        }
    }

    /// Returns whether memory ran out.
    pub fn is_memory(&self) -> bool {
        *self == Error::Memory
    }

    /// Returns the line of the error, counted from 1; 0 if memory ran out.
    pub fn line(&self) -> usize {
        match self {
            Error::Memory => 0,
            Error::Text { line, .. } => *line,
        }
    }

    /// Returns the column of the error in bytes; 0 if memory ran out.
    pub fn column(&self) -> usize {
        match self {
            Error::Memory => 0,
            Error::Text { column, .. } => *column,
        }
    }
}

impl From<AllocError> for Error {
    fn from(_: AllocError) -> Error {
        Error::Memory
    }
}

impl Map {
    /// Returns an object without members.
    pub fn new(alloc: Global) -> Map {
        Map(Vec::new(alloc))
    }

    /// Returns the members by name, of each name the last. Each has how many were before it.
    fn of_last(mut members: Vec<(String, usize, Value)>) -> Result<Map, AllocError> {
        members.sort_unstable_by(|a, b| (&a.0, b.1).cmp(&(&b.0, a.1)));
        members.dedup_by(|later, first| later.0 == first.0);
        let mut map = Map(Vec::with_capacity(Global, members.len())?);
        for (name, _, value) in members {
            map.0.push((name, value))?;
        }
        Ok(map)
    }

    /// Puts a member in, in the place of one of this name.
    pub fn insert(&mut self, name: String, value: Value) -> Result<(), AllocError> {
        match self
            .0
            .binary_search_by(|member| member.0.as_str().cmp(&name))
        {
            Ok(at) => self.0[at].1 = value,
            Err(at) => self.0.insert(at, (name, value))?,
        }
        Ok(())
    }

    /// Returns the member of this name.
    pub fn get(&self, name: &str) -> Option<&Value> {
        let at = self
            .0
            .binary_search_by(|member| member.0.as_str().cmp(name))
            .ok()?;
        Some(&self.0[at].1)
    }

    /// Returns the members in the order of their names.
    pub fn iter(&self) -> impl Iterator<Item = (&String, &Value)> {
        self.0.iter().map(|(name, value)| (name, value))
    }
}

impl TryClone for Value {
    fn try_clone(&self) -> Result<Value, AllocError> {
        match self {
            Value::Null => Ok(Value::Null),
            Value::Bool(truth) => Ok(Value::Bool(*truth)),
            Value::Number(number) => Ok(Value::Number(*number)),
            Value::String(text) => Ok(Value::String(text.try_clone()?)),
            Value::Array(items) => Ok(Value::Array(items.try_clone()?)),
            Value::Object(members) => {
                let mut copy = Map(Vec::with_capacity(Global, members.0.len())?);
                for (name, value) in &members.0 {
                    copy.0.push((name.try_clone()?, value.try_clone()?))?;
                }
                Ok(Value::Object(copy))
            }
        }
    }
}

impl Value {
    /// Reads a value that all of the text spells.
    pub fn from_slice(_alloc: Global, text: &[u8]) -> Result<Value, Error> {
        read::value_of(text)
    }

    /// Returns the member of this name, if this is an object.
    pub fn get(&self, name: &str) -> Option<&Value> {
        match self {
            Value::Object(map) => map.get(name),
            _ => None,
        }
    }

    /// Returns the items, if this is a list.
    pub fn as_array(&self) -> Option<&Vec<Value>> {
        match self {
            Value::Array(items) => Some(items),
            _ => None,
        }
    }

    /// Returns the members, if this is an object.
    pub fn as_object(&self) -> Option<&Map> {
        match self {
            Value::Object(members) => Some(members),
            _ => None,
        }
    }

    /// Returns the text, if this is one.
    pub fn as_str(&self) -> Option<&str> {
        match self {
            Value::String(text) => Some(text.as_str()),
            _ => None,
        }
    }

    /// Returns the number, if this is a whole one of 0 or more, written without a point.
    pub fn as_u64(&self) -> Option<u64> {
        match self {
            Value::Number(Number::Positive(number)) => Some(*number),
            _ => None,
        }
    }

    /// Returns the number, if this is a whole one, written without a point.
    pub fn as_i64(&self) -> Option<i64> {
        match self {
            Value::Number(Number::Positive(number)) => i64::try_from(*number).ok(),
            Value::Number(Number::Negative(number)) => Some(*number),
            _ => None,
        }
    }
}

impl From<String> for Value {
    fn from(text: String) -> Value {
        Value::String(text)
    }
}

impl From<u32> for Value {
    fn from(number: u32) -> Value {
        Value::Number(Number::Positive(number.into()))
    }
}

impl From<u64> for Value {
    fn from(number: u64) -> Value {
        Value::Number(Number::Positive(number))
    }
}

/// Puts a member of this name into an object.
pub fn put(map: &mut Map, alloc: Global, name: &str, value: Value) -> Result<(), AllocError> {
    map.insert(String::from_str(alloc, name)?, value)
}

/// Appends an item to a list.
pub fn push(items: &mut Vec<Value>, item: Value) -> Result<(), AllocError> {
    Ok(items.push(item)?)
}

/// Makes an object of its members.
#[macro_export]
macro_rules! json {
    (in $alloc:expr; { $($name:literal : $value:expr),* $(,)? }) => {
        $crate::object($alloc, [$(($name, $value.into())),*])
    };
}

/// Makes an object of its members. This is a part of `json!`.
pub fn object<const N: usize>(
    alloc: Global,
    members: [(&str, Value); N],
) -> Result<Value, AllocError> {
    let mut map = Map::new(alloc);
    for (name, value) in members {
        put(&mut map, alloc, name, value)?;
    }
    Ok(Value::Object(map))
}
