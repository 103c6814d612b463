//! Values and items to native types.

use crate::containers::{Array, Tag};
use crate::get_error::GetError;
use crate::item::{Item, View};
use crate::map::Map;
use crate::parts::Part;
use crate::value::{Simple, Value};
use alloc::collections::BTreeMap;
use alloc::string::String;
use alloc::vec::Vec;

// An integer is the head of its item.
fn integer(part: Part<'_>, needed: &'static str) -> Result<i128, GetError> {
    match part.kind {
        0 => Ok(part.number.into()),
        1 => Ok(-1 - i128::from(part.number)),
        _ => Err(GetError::wrong_kind(part, needed)),
    }
}

fn flag(part: Part<'_>) -> Result<bool, GetError> {
    match (part.kind, Simple::new(part.number as u8)) {
        (7, Some(Simple::FALSE)) => Ok(false),
        (7, Some(Simple::TRUE)) => Ok(true),
        _ => Err(GetError::wrong_kind(part, "false or true")),
    }
}

fn simple(part: Part<'_>) -> Result<Simple, GetError> {
    let found = (part.kind == 7).then(|| Simple::new(part.number as u8));
    let needed = "a simple value";
    found
        .flatten()
        .ok_or_else(|| GetError::wrong_kind(part, needed))
}

// What is read from a head alone, of an item, of a value, and of a borrowed one.
macro_rules! of_heads {
    ($($type:ty: $read:expr;)*) => {$(
        impl TryFrom<Item<'_>> for $type {
            type Error = GetError;

            fn try_from(item: Item<'_>) -> Result<$type, GetError> {
                $read(item.part())
            }
        }

        impl TryFrom<&Value> for $type {
            type Error = GetError;

            fn try_from(value: &Value) -> Result<$type, GetError> {
                $read(Part::of(value))
            }
        }

        impl TryFrom<Value> for $type {
            type Error = GetError;

            fn try_from(value: Value) -> Result<$type, GetError> {
                $read(Part::of(&value))
            }
        }
    )*};
}

of_heads! {
    bool: flag;
    Simple: simple;
}

macro_rules! integers {
    ($($type:ident)*) => {
        of_heads! {$(
            $type: |part| {
                let number = integer(part, "an integer")?;
                number.try_into().map_err(|_| GetError::out_of_range(number, stringify!($type)))
            };
        )*}
    };
}

integers!(u8 u16 u32 u64 usize i8 i16 i32 i64 isize i128);

macro_rules! of_items {
    ($($type:ty, $needed:literal: $view:pat => $native:expr;)*) => {$(
        impl<'a> TryFrom<Item<'a>> for $type {
            type Error = GetError;

            fn try_from(item: Item<'a>) -> Result<$type, GetError> {
                match item.view() {
                    $view => Ok($native),
                    _ => Err(GetError::wrong_kind(item.part(), $needed)),
                }
            }
        }
    )*};
}

of_items! {
    &'a str, "a text": View::Text(text) => text;
    String, "a text": View::Text(text) => text.into();
    &'a [u8], "a byte string": View::Bytes(bytes) => bytes;
    Vec<u8>, "a byte string": View::Bytes(bytes) => bytes.into();
}

macro_rules! of_borrowed {
    ($($type:ty, $needed:literal: $value:pat => $native:expr;)*) => {$(
        impl<'a> TryFrom<&'a Value> for $type {
            type Error = GetError;

            fn try_from(value: &'a Value) -> Result<$type, GetError> {
                match value {
                    $value => Ok($native),
                    _ => Err(GetError::wrong_kind(Part::of(value), $needed)),
                }
            }
        }
    )*};
}

of_borrowed! {
    &'a str, "a text": Value::Text(text) => text;
    String, "a text": Value::Text(text) => text.clone();
    &'a [u8], "a byte string": Value::Bytes(bytes) => bytes;
    Vec<u8>, "a byte string": Value::Bytes(bytes) => bytes.clone();
    &'a Array, "an array": Value::Array(members) => members;
    &'a Map, "a map": Value::Map(pairs) => pairs;
    &'a Tag, "a tag": Value::Tag(tag) => tag;
}

macro_rules! of_owned {
    ($($type:ty, $needed:literal: $value:pat => $native:expr;)*) => {$(
        impl TryFrom<Value> for $type {
            type Error = GetError;

            fn try_from(value: Value) -> Result<$type, GetError> {
                match value {
                    $value => Ok($native),
                    value => Err(GetError::wrong_kind(Part::of(&value), $needed)),
                }
            }
        }
    )*};
}

of_owned! {
    String, "a text": Value::Text(text) => text;
    Vec<u8>, "a byte string": Value::Bytes(bytes) => bytes;
    Array, "an array": Value::Array(members) => members;
    Vec<Value>, "an array": Value::Array(members) => members.into();
    Map, "a map": Value::Map(pairs) => pairs;
    BTreeMap<Value, Value>, "a map": Value::Map(pairs) => pairs.into();
    Tag, "a tag": Value::Tag(tag) => tag;
}

impl Value {
    /// The members of an array, each as this type.
    ///
    /// ```
    /// use naltvigo::Value;
    ///
    /// let value: Value = ["read", "write"].into_iter().collect();
    /// assert_eq!(value.into_members::<String>()?, ["read", "write"]);
    /// # Ok::<(), naltvigo::GetError>(())
    /// ```
    pub fn into_members<T>(self) -> Result<Vec<T>, GetError>
    where
        T: TryFrom<Value>,
        GetError: From<T::Error>,
    {
        let members = Array::try_from(self)?.into_iter();
        members.map(|it| Ok(T::try_from(it)?)).collect()
    }

    /// The pairs of a map, each key and each value as these types. An error has the key.
    pub fn into_pairs<K, V>(self) -> Result<BTreeMap<K, V>, GetError>
    where
        K: TryFrom<Value> + Ord,
        V: TryFrom<Value>,
        GetError: From<K::Error> + From<V::Error>,
    {
        let mut pairs = BTreeMap::new();
        for (key, value) in Map::try_from(self)? {
            let value = V::try_from(value).map_err(|why| GetError::from(why).at((&key).into()))?;
            pairs.insert(K::try_from(key)?, value);
        }
        Ok(pairs)
    }
}

impl<'a> Item<'a> {
    /// The members of an array, each as this type.
    ///
    /// ```
    /// use naltvigo::{Item, Options};
    ///
    /// let item = Item::open(b"\xa1\x61a\x82\x61b\x61c", &Options::default())?;
    /// let members: Vec<&str> = item.field::<Item>("a")?.into_members()?;
    /// assert_eq!(members, ["b", "c"]);
    /// # Ok::<(), Box<dyn std::error::Error>>(())
    /// ```
    pub fn into_members<T>(self) -> Result<Vec<T>, GetError>
    where
        T: TryFrom<Item<'a>>,
        GetError: From<T::Error>,
    {
        self.members()?.map(|it| Ok(T::try_from(it)?)).collect()
    }

    /// The pairs of a map, each key and each value as these types. An error has the key.
    pub fn into_pairs<K, V>(self) -> Result<BTreeMap<K, V>, GetError>
    where
        K: TryFrom<Item<'a>> + Ord,
        V: TryFrom<Item<'a>>,
        GetError: From<K::Error> + From<V::Error>,
    {
        let typed = |(key, value): (Item<'a>, Item<'a>)| {
            let value = V::try_from(value).map_err(|why| GetError::from(why).at(key.into()))?;
            Ok((K::try_from(key)?, value))
        };
        self.pairs()?.map(typed).collect()
    }
}
