//! Writing JSON with a line for each item and member, a token at a time, or without spaces, and
//! reading it as a tree.

#![deny(unsafe_op_in_unsafe_fn)]

mod read;
mod write;

pub use read::{Error, Scratch, Value};
pub use write::Writer;

use plain_std::alloc::{AllocError, Global};
use plain_std::vec::Vec;
use write::put_text;

/// A token of JSON.
#[derive(Clone, Copy, Debug)]
pub enum Token<'a> {
    /// `{`
    BeginObject,
    /// `}`
    EndObject,
    /// `[`
    BeginArray,
    /// `]`
    EndArray,
    /// The name of a member.
    Key(&'a str),
    /// A text.
    String(&'a str),
    /// A number, as it is written.
    Number(&'a str),
    /// `true` or `false`.
    Bool(bool),
    /// `null`.
    Null,
}

/// What was written before.
#[derive(Clone, Copy)]
enum Before {
    Nothing,
    Bracket,
    Key,
    Value,
}

/// Writes tokens into a list of bytes.
pub struct Pretty {
    out: Vec<u8>,
    before: Before,
    depth: usize,
}

impl Pretty {
    /// Begins.
    pub fn new(alloc: Global) -> Pretty {
        Pretty {
            out: Vec::new(alloc),
            before: Before::Nothing,
            depth: 0,
        }
    }

    /// Returns the text.
    pub fn into_inner(self) -> Vec<u8> {
        self.out
    }

    /// Writes a token, with what has to come before it.
    pub fn token(&mut self, token: Token<'_>) -> Result<(), AllocError> {
        let is_end = matches!(token, Token::EndObject | Token::EndArray);
        self.depth -= usize::from(is_end);
        match self.before {
            Before::Nothing => {}
            Before::Key => self.put(" ")?,
            Before::Bracket if is_end => {}
            Before::Bracket => self.new_line()?,
            Before::Value => {
                self.put(if is_end { "" } else { "," })?;
                self.new_line()?;
            }
        }
        self.before = match token {
            Token::BeginObject | Token::BeginArray => Before::Bracket,
            Token::Key(_) => Before::Key,
            _ => Before::Value,
        };
        self.depth += usize::from(matches!(self.before, Before::Bracket));
        match token {
            Token::BeginObject => self.put("{"),
            Token::EndObject => self.put("}"),
            Token::BeginArray => self.put("["),
            Token::EndArray => self.put("]"),
            Token::Key(name) => self.text(name).and_then(|()| self.put(":")),
            Token::String(text) => self.text(text),
            Token::Number(text) => self.put(text),
            Token::Bool(value) => self.put(if value { "true" } else { "false" }),
            Token::Null => self.put("null"),
        }
    }

    fn put(&mut self, text: &str) -> Result<(), AllocError> {
        self.out.extend_from_slice(text.as_bytes())
    }

    fn new_line(&mut self) -> Result<(), AllocError> {
        self.put("\n")?;
        for _ in 0..self.depth {
            self.put("  ")?;
        }
        Ok(())
    }

    fn text(&mut self, text: &str) -> Result<(), AllocError> {
        put_text(&mut self.out, text)
    }
}

#[cfg(test)]
mod tests {
    use super::{Pretty, Token};
    use plain_std::alloc::Global;

    #[test]
    fn each_item_and_member_has_a_line() {
        let mut out = Pretty::new(Global);
        let tokens = [
            Token::BeginObject,
            Token::Key("a\n"),
            Token::BeginArray,
            Token::Number("1"),
            Token::Null,
            Token::EndArray,
            Token::Key("b"),
            Token::BeginObject,
            Token::EndObject,
            Token::EndObject,
        ];
        for token in tokens {
            out.token(token).unwrap();
        }
        let text = "{\n  \"a\\n\": [\n    1,\n    null\n  ],\n  \"b\": {}\n}";
        assert_eq!(out.into_inner().as_slice(), text.as_bytes());
    }
}
