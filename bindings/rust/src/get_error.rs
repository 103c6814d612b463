//! Why a look-up or a conversion fails.

use crate::calls::diagnostic;
use crate::key::Key;
use crate::options::WIDEST;
use crate::parts::Part;
use crate::value::{Simple, Value};
use alloc::boxed::Box;
use alloc::format;
use alloc::string::ToString;
use core::convert::Infallible;
use core::error::Error;
use core::fmt;

/// Why a look-up or a conversion fails. `Display` and `Debug` say it in a sentence:
/// `the value at key "exp" is a text, not an integer`.
///
/// A key is written as its diagnostic text. If a conversion that looks up keys fails within a look-up,
/// the keys are joined with dots, the outermost first: `the value at key "to"."id" is a text, not an
/// integer`.
#[derive(Clone, PartialEq, Eq)]
#[non_exhaustive]
pub enum GetError {
    /// The map has no such key.
    #[non_exhaustive]
    NotFound {
        /// The key, or the keys.
        key: Box<str>,
    },
    /// The item is of another kind.
    #[non_exhaustive]
    WrongKind {
        /// The key, or the keys, of the look-up, if there was one.
        key: Option<Box<str>>,
        /// What the item is: `"a text"`.
        found: &'static str,
        /// What is needed: `"an integer"`.
        needed: &'static str,
    },
    /// The integer is outside of the type.
    #[non_exhaustive]
    OutOfRange {
        /// The key, or the keys, of the look-up, if there was one.
        key: Option<Box<str>>,
        /// The integer.
        found: i128,
        /// The type's name: `"u8"`.
        needed: &'static str,
    },
}

impl GetError {
    pub(crate) fn not_found(key: Key<'_>) -> GetError {
        GetError::NotFound { key: text_of(key) }
    }

    pub(crate) fn wrong_kind(found: Part<'_>, needed: &'static str) -> GetError {
        GetError::WrongKind {
            key: None,
            found: name_of(found),
            needed,
        }
    }

    pub(crate) fn out_of_range(found: i128, needed: &'static str) -> GetError {
        GetError::OutOfRange {
            key: None,
            found,
            needed,
        }
    }

    /// The same error, within the value at this key.
    pub(crate) fn at(mut self, looked_up: Key<'_>) -> GetError {
        let outer = text_of(looked_up);
        match &mut self {
            GetError::NotFound { key } => *key = format!("{outer}.{key}").into(),
            GetError::WrongKind { key, .. } | GetError::OutOfRange { key, .. } => {
                *key = Some(match key {
                    Some(inner) => format!("{outer}.{inner}").into(),
                    None => outer,
                });
            }
        }
        self
    }
}

fn text_of(key: Key<'_>) -> Box<str> {
    let value = match key {
        Key::Unsigned(number) => Value::Unsigned(number),
        Key::Negative(number) => Value::Negative(number),
        Key::Bytes(bytes) => Value::bytes(bytes),
        Key::Text(text) => text.into(),
        Key::Value(value) => return value.to_string().into(),
        Key::Encoded(bytes) => {
            let text = diagnostic(bytes, &WIDEST);
            return text.unwrap_or_else(|_| format!("{bytes:02x?}")).into();
        }
    };
    value.to_string().into()
}

fn name_of(part: Part<'_>) -> &'static str {
    match part.kind {
        0 | 1 => "an integer",
        2 => "a byte string",
        3 => "a text",
        4 => "an array",
        5 => "a map",
        6 => "a tag",
        _ => match Simple::new(part.number as u8) {
            Some(Simple::FALSE) => "false",
            Some(Simple::TRUE) => "true",
            Some(Simple::NULL) => "null",
            Some(Simple::UNDEFINED) => "undefined",
            _ => "a simple value",
        },
    }
}

impl fmt::Display for GetError {
    fn fmt(&self, f: &mut fmt::Formatter<'_>) -> fmt::Result {
        let (key, found, needed) = match self {
            GetError::NotFound { key } => return write!(f, "the map has no key {key}"),
            GetError::WrongKind { key, found, needed } => (key, *found, format!("not {needed}")),
            GetError::OutOfRange { key, found, needed } => (
                key,
                &*found.to_string(),
                format!("which {needed} does not hold"),
            ),
        };
        match key {
            Some(key) => write!(f, "the value at key {key} is {found}, {needed}"),
            None => write!(f, "the item is {found}, {needed}"),
        }
    }
}

impl Error for GetError {}

// Of a conversion that cannot fail, as that of a value to itself.
impl From<Infallible> for GetError {
    fn from(never: Infallible) -> GetError {
        match never {}
    }
}
