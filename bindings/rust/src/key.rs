//! Keys to look up, and the order that they share with values.

use crate::item::Item;
use crate::parts::Part;
use crate::value::Value;
use alloc::string::String;
use core::borrow::Borrow;
use core::cmp::Ordering;

/// A key to look up in a map. Integers, texts, values and items become one with `from`.
///
/// A look-up in a [`Map`](crate::Map) allocates memory only for `Encoded`. A look-up in an [`Item`]
/// allocates memory only for `Value`, and for a string of more than 64 bytes.
#[derive(Clone, Copy, Debug)]
#[non_exhaustive]
pub enum Key<'k> {
    /// An integer that is 0 or greater.
    Unsigned(u64),
    /// The integer -1 - n.
    Negative(u64),
    /// A byte string.
    Bytes(&'k [u8]),
    /// A text.
    Text(&'k str),
    /// Any key, as a value.
    Value(&'k Value),
    /// Any key, as its canonical bytes in the order of the map that is searched.
    Encoded(&'k [u8]),
}

impl<'k> From<&'k str> for Key<'k> {
    fn from(text: &'k str) -> Key<'k> {
        Key::Text(text)
    }
}

impl<'k> From<&'k String> for Key<'k> {
    fn from(text: &'k String) -> Key<'k> {
        Key::Text(text)
    }
}

impl<'k> From<&'k Value> for Key<'k> {
    fn from(value: &'k Value) -> Key<'k> {
        Key::Value(value)
    }
}

impl<'k> From<Item<'k>> for Key<'k> {
    fn from(item: Item<'k>) -> Key<'k> {
        Key::Encoded(item.bytes())
    }
}

impl<'k> Key<'k> {
    /// The part that the key is. None for a key that may have more parts.
    pub(crate) fn part(self) -> Option<Part<'k>> {
        let (kind, number, payload) = match self {
            Key::Unsigned(number) => (0, number, &[][..]),
            Key::Negative(number) => (1, number, &[][..]),
            Key::Bytes(bytes) => (2, bytes.len() as u64, bytes),
            Key::Text(text) => (3, text.len() as u64, text.as_bytes()),
            Key::Value(_) | Key::Encoded(_) => return None,
        };
        Some(Part {
            kind,
            number,
            payload,
        })
    }
}

/// A key to look for in a map of values: a value, or one part that is a value. So a map finds a text
/// without a `String`.
pub(crate) trait Sought {
    fn first(&self) -> Part<'_>;
    fn value(&self) -> Option<&Value>;
}

impl Sought for Value {
    fn first(&self) -> Part<'_> {
        Part::of(self)
    }

    fn value(&self) -> Option<&Value> {
        Some(self)
    }
}

impl Sought for Part<'_> {
    fn first(&self) -> Part<'_> {
        *self
    }

    fn value(&self) -> Option<&Value> {
        None
    }
}

impl Ord for dyn Sought + '_ {
    fn cmp(&self, other: &Self) -> Ordering {
        let first = self.first().cmp(&other.first());
        match (self.value(), other.value()) {
            (Some(one), Some(two)) => first.then_with(|| one.cmp_parts(two)),
            // a part that is a value has no others after it
            _ => first,
        }
    }
}

impl PartialOrd for dyn Sought + '_ {
    fn partial_cmp(&self, other: &Self) -> Option<Ordering> {
        Some(self.cmp(other))
    }
}

impl PartialEq for dyn Sought + '_ {
    fn eq(&self, other: &Self) -> bool {
        self.cmp(other) == Ordering::Equal
    }
}

impl Eq for dyn Sought + '_ {}

impl<'a> Borrow<dyn Sought + 'a> for Value {
    fn borrow(&self) -> &(dyn Sought + 'a) {
        self
    }
}
