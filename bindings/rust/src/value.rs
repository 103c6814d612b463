//! Values, owned.

use crate::builder::{value_of, value_of_bytes};
use crate::calls::{canonicalise, diagnostic};
use crate::containers::{Array, Tag};
use crate::get_error::GetError;
use crate::heads;
use crate::key::Key;
use crate::map::{Map, RepeatedKey};
use crate::options::{Options, WIDEST};
use crate::parts::{Part, Parts};
use crate::refused::Refused;
use alloc::string::String;
use alloc::vec::Vec;
use core::cmp::Ordering;
use core::fmt;
use core::hash::{Hash, Hasher};

/// A value: what an item means, in any encoding. There are no floating-point numbers.
///
/// Two values are equal if and only if their canonical bytes are equal. The order of values is the
/// bytewise order of these bytes (RFC 8949, section 4.2.1). `Display` and `Debug` write the diagnostic
/// text.
///
/// Values are made, compared, encoded, shown and dropped without recursion, so a deep one does not
/// overflow the stack. They are stored in Rust's collections, which abort if memory runs out. While
/// 1 MiB of small items is decoded, up to 85 MiB are in use.
///
/// ```
/// use naltvigo::{Options, Value};
///
/// let value = Value::map([("Fun".into(), true.into()), ("Amt".into(), (-2).into())])?;
/// let bytes = value.encode(&Options::default())?;
/// assert_eq!(bytes, b"\xa2\x63Amt\x21\x63Fun\xf5");
/// assert_eq!(Value::decode(&bytes, &Options::default())?, value);
/// assert_eq!(value.to_string(), r#"{"Amt": -2, "Fun": true}"#);
/// # Ok::<(), Box<dyn std::error::Error>>(())
/// ```
#[allow(missing_docs)]
pub enum Value {
    Unsigned(u64),
    /// The number -1 - n.
    Negative(u64),
    Bytes(Vec<u8>),
    Text(String),
    Array(Array),
    Map(Map),
    Tag(Tag),
    Simple(Simple),
}

/// A simple value: 0 to 23, or 32 to 255.
#[derive(Clone, Copy, Debug, PartialEq, Eq, PartialOrd, Ord, Hash)]
pub struct Simple(u8);

#[allow(missing_docs)]
impl Simple {
    pub const FALSE: Simple = Simple(20);
    pub const TRUE: Simple = Simple(21);
    pub const NULL: Simple = Simple(22);
    pub const UNDEFINED: Simple = Simple(23);

    /// None for 24 to 31, which do not exist.
    pub const fn new(number: u8) -> Option<Simple> {
        if number < 24 || number >= 32 {
            Some(Simple(number))
        } else {
            None
        }
    }

    pub const fn number(self) -> u8 {
        self.0
    }
}

// The levels that a comparison keeps on the stack, in a few KiB.
const LEVELS: u8 = 32;

impl Value {
    /// The simple value null.
    pub const NULL: Value = Value::Simple(Simple::NULL);

    /// A map of these pairs, in any order. Fails if two keys are equal, so none is lost.
    pub fn map(pairs: impl IntoIterator<Item = (Value, Value)>) -> Result<Value, RepeatedKey> {
        Map::new(pairs).map(Value::Map)
    }

    /// An array of these members. For an iterator, use `collect`.
    pub fn array(members: impl IntoIterator<Item = Value>) -> Value {
        members.into_iter().collect()
    }

    /// A byte string. There is no `From<Vec<u8>>`, because `vec![1, 2]` could also mean an array.
    pub fn bytes(bytes: impl Into<Vec<u8>>) -> Value {
        Value::Bytes(bytes.into())
    }

    /// A tag with this number and content.
    pub fn tag(number: u64, content: impl Into<Value>) -> Value {
        Value::Tag(Tag::new(number, content))
    }

    /// The canonical bytes. Fails with `TooDeep`, `TooLong` or `KeyKind` if the value is not within the
    /// limits, and with `Memory` if [`canonicalise`] does.
    ///
    /// Heads and payloads are written in the order of the value. Then the proved `canonicalise` makes the
    /// canonical bytes from them, in the requested order of keys.
    pub fn encode(&self, options: &Options) -> Result<Vec<u8>, Refused> {
        let mut out = Vec::new();
        for part in self.parts() {
            // these bytes are too long already, so they are refused with any bytes after them
            if out.len() as u64 > options.bytes() {
                break;
            }
            heads::append(part, &mut out);
        }
        canonicalise(&out, options)
    }

    /// The value of an input that is one valid item, in any encoding.
    /// [`Item::open`](crate::Item::open) accepts only canonical bytes.
    pub fn decode(input: &[u8], options: &Options) -> Result<Value, Refused> {
        let bytes = canonicalise(input, options)?;
        Ok(value_of_bytes(&bytes, options.order()))
    }

    fn parts(&self) -> Parts<'_> {
        Parts::of_value(self)
    }

    /// The order of all parts.
    pub(crate) fn cmp_parts(&self, other: &Value) -> Ordering {
        self.cmp_down(other, LEVELS)
    }

    // The same, without memory for this many levels.
    fn cmp_down(&self, other: &Value, levels: u8) -> Ordering {
        let Some(levels) = levels.checked_sub(1) else {
            return self.parts().cmp(other.parts());
        };
        let down = |(one, two): (&Value, &Value)| one.cmp_down(two, levels);
        let first = |found: Ordering| found.is_ne().then_some(found);
        // two containers of one head have as many members
        Part::of(self)
            .cmp(&Part::of(other))
            .then_with(|| match (self, other) {
                (Value::Array(one), Value::Array(two)) => {
                    let mut found = one.iter().zip(two.iter()).map(down);
                    found.find_map(first).unwrap_or(Ordering::Equal)
                }
                (Value::Map(one), Value::Map(two)) => {
                    let pairs = one.iter().zip(two.iter());
                    let mut found = pairs
                        .map(|(one, two)| down((one.0, two.0)).then_with(|| down((one.1, two.1))));
                    found.find_map(first).unwrap_or(Ordering::Equal)
                }
                (Value::Tag(one), Value::Tag(two)) => down((one.content(), two.content())),
                _ => Ordering::Equal,
            })
    }

    /// The value at a key of a map. None if this is not a map, or has no such key.
    pub fn get<'k>(&self, key: impl Into<Key<'k>>) -> Option<&Value> {
        match self {
            Value::Map(pairs) => pairs.get(key),
            _ => None,
        }
    }

    /// The value at a key of a map, as this type: a reference to a value, an integer, `&str`, `&[u8]`
    /// or `bool`.
    pub fn field<'v, 'k, T>(&'v self, key: impl Into<Key<'k>>) -> Result<T, GetError>
    where
        T: TryFrom<&'v Value>,
        GetError: From<T::Error>,
    {
        let (key, map) = (key.into(), <&Map>::try_from(self)?);
        let value = map.get(key).ok_or_else(|| GetError::not_found(key))?;
        T::try_from(value).map_err(|why| GetError::from(why).at(key))
    }

    /// The same, or none if there is no such key or its value is null.
    pub fn optional<'v, 'k, T>(&'v self, key: impl Into<Key<'k>>) -> Result<Option<T>, GetError>
    where
        T: TryFrom<&'v Value>,
        GetError: From<T::Error>,
    {
        let (key, map) = (key.into(), <&Map>::try_from(self)?);
        match map.get(key) {
            None | Some(Value::Simple(Simple::NULL)) => Ok(None),
            Some(_) => self.field(key).map(Some),
        }
    }
}

impl Clone for Value {
    fn clone(&self) -> Value {
        value_of(self.parts())
    }
}

impl PartialEq for Value {
    fn eq(&self, other: &Value) -> bool {
        self.cmp(other).is_eq()
    }
}

impl Eq for Value {}

impl Ord for Value {
    fn cmp(&self, other: &Value) -> Ordering {
        self.cmp_parts(other)
    }
}

impl PartialOrd for Value {
    fn partial_cmp(&self, other: &Value) -> Option<Ordering> {
        Some(self.cmp(other))
    }
}

impl Hash for Value {
    fn hash<H: Hasher>(&self, state: &mut H) {
        self.parts().for_each(|part| part.hash(state));
    }
}

impl fmt::Display for Value {
    fn fmt(&self, f: &mut fmt::Formatter<'_>) -> fmt::Result {
        let text = self
            .encode(&WIDEST)
            .and_then(|bytes| diagnostic(&bytes, &WIDEST));
        match text {
            Ok(text) => f.write_str(&text),
            // deeper than the library goes
            Err(refused) => refused.fmt(f),
        }
    }
}

impl fmt::Debug for Value {
    fn fmt(&self, f: &mut fmt::Formatter<'_>) -> fmt::Result {
        fmt::Display::fmt(self, f)
    }
}
