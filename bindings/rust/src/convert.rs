//! Native types to values and keys.

use crate::containers::{Array, Tag};
use crate::item::Item;
use crate::key::Key;
use crate::map::Map;
use crate::value::{Simple, Value};
use alloc::collections::BTreeMap;
use alloc::string::String;
use alloc::vec::Vec;
use core::num::TryFromIntError;

macro_rules! from {
    ($($type:ty: $name:pat => $value:expr;)*) => {$(
        impl From<$type> for Value {
            fn from($name: $type) -> Value {
                $value
            }
        }
    )*};
}

from! {
    bool: flag => Value::Simple(if flag { Simple::TRUE } else { Simple::FALSE });
    &str: text => Value::Text(text.into());
    String: text => Value::Text(text);
    Vec<Value>: members => Value::Array(members.into());
    Array: members => Value::Array(members);
    Map: pairs => Value::Map(pairs);
    Tag: tag => Value::Tag(tag);
    Simple: simple => Value::Simple(simple);
    Item<'_>: item => item.to_value();
}

/// None is null.
impl<T: Into<Value>> From<Option<T>> for Value {
    fn from(value: Option<T>) -> Value {
        value.map_or(Value::NULL, Into::into)
    }
}

/// An array of the items of an iterator: `[1, 2].into_iter().collect::<Value>()`. There is no
/// `From<Vec<T>>`, because a `Vec<u8>` could mean a byte string or an array.
impl<T: Into<Value>> FromIterator<T> for Value {
    fn from_iter<I: IntoIterator<Item = T>>(members: I) -> Value {
        Value::Array(members.into_iter().collect())
    }
}

impl<K: Into<Value>, V: Into<Value>> From<BTreeMap<K, V>> for Value {
    fn from(pairs: BTreeMap<K, V>) -> Value {
        Value::Map(pairs.into_iter().collect())
    }
}

// An integer as values and keys have it: its sign, and the number of its head.
enum Integer {
    Unsigned(u64),
    Negative(u64),
}

impl TryFrom<i128> for Integer {
    type Error = TryFromIntError;

    fn try_from(number: i128) -> Result<Integer, TryFromIntError> {
        match number {
            0.. => number.try_into().map(Integer::Unsigned),
            _ => (!number).try_into().map(Integer::Negative),
        }
    }
}

impl From<Integer> for Value {
    fn from(integer: Integer) -> Value {
        match integer {
            Integer::Unsigned(number) => Value::Unsigned(number),
            Integer::Negative(number) => Value::Negative(number),
        }
    }
}

impl From<Integer> for Key<'_> {
    fn from(integer: Integer) -> Self {
        match integer {
            Integer::Unsigned(number) => Key::Unsigned(number),
            Integer::Negative(number) => Key::Negative(number),
        }
    }
}

/// Fails outside of -2^64 to 2^64 - 1.
impl TryFrom<i128> for Value {
    type Error = TryFromIntError;

    fn try_from(number: i128) -> Result<Value, TryFromIntError> {
        Integer::try_from(number).map(Value::from)
    }
}

macro_rules! integers {
    ($($type:ty)*) => {$(
        impl From<$type> for Integer {
            #[allow(unused_comparisons)]
            fn from(number: $type) -> Integer {
                if number >= 0 {
                    Integer::Unsigned(number as u64)
                } else {
                    Integer::Negative(!(number as i64) as u64)
                }
            }
        }

        impl From<$type> for Value {
            fn from(number: $type) -> Value {
                Integer::from(number).into()
            }
        }

        impl From<$type> for Key<'_> {
            fn from(number: $type) -> Self {
                Integer::from(number).into()
            }
        }
    )*};
}

integers!(u8 u16 u32 u64 usize i8 i16 i32 i64 isize);
