//! Values from their parts.

use crate::containers::{Array, Tag};
use crate::heads;
use crate::map::Map;
use crate::options::Order;
use crate::parts::Part;
use crate::value::{Simple, Value};
use alloc::string::String;
use alloc::vec::Vec;
use core::mem;

/// The value of an item in its canonical bytes, in this order of keys.
pub(crate) fn value_of_bytes(bytes: &[u8], order: Order) -> Value {
    heads::with_index(bytes, order, |items| {
        value_of(items.iter().map(|item| Part::of_item(item, bytes)))
    })
}

// A container whose members are not all there.
enum Open {
    Array(u64, Vec<Value>),
    Map(u64, Option<Value>, Vec<(Value, Value)>),
    Tag(u64),
}

impl Open {
    // The container, once this is its last member.
    fn take(&mut self, value: Value) -> Option<Value> {
        match self {
            Open::Array(count, members) => {
                members.push(value);
                let whole = members.len() as u64 == *count;
                whole.then(|| Value::Array(mem::take(members).into()))
            }
            Open::Map(count, key, pairs) => {
                match key.take() {
                    None => *key = Some(value),
                    Some(key) => pairs.push((key, value)),
                }
                let whole = pairs.len() as u64 == *count;
                whole.then(|| Value::Map(Map::of_distinct(mem::take(pairs))))
            }
            Open::Tag(number) => Some(Value::Tag(Tag::new(*number, value))),
        }
    }
}

// Puts a value where it belongs, and closes each container that it is the last member of. Some where
// none is left open.
fn close(open: &mut Vec<Open>, mut value: Value) -> Option<Value> {
    while let Some(container) = open.last_mut() {
        value = container.take(value)?;
        open.pop();
    }
    Some(value)
}

/// The value of these parts.
pub(crate) fn value_of<'a>(parts: impl Iterator<Item = Part<'a>>) -> Value {
    let mut open: Vec<Open> = Vec::new();
    for part in parts {
        let number = part.number;
        let space = number as usize;
        let value = match part.kind {
            4 if number > 0 => {
                open.push(Open::Array(number, Vec::with_capacity(space)));
                continue;
            }
            5 if number > 0 => {
                open.push(Open::Map(number, None, Vec::with_capacity(space)));
                continue;
            }
            6 => {
                open.push(Open::Tag(number));
                continue;
            }
            _ => leaf(part),
        };
        if let Some(whole) = close(&mut open, value) {
            return whole;
        }
    }
    unreachable!("the parts are those of a whole value")
}

// The value of a part that is a whole item: a scalar, or an empty container.
fn leaf(part: Part<'_>) -> Value {
    let simple = |number| Simple::new(number).expect("no simple value is 24 to 31");
    match part.kind {
        0 => Value::Unsigned(part.number),
        1 => Value::Negative(part.number),
        2 => Value::Bytes(part.payload.into()),
        3 => Value::Text(String::from_utf8(part.payload.into()).expect("texts are UTF-8")),
        4 => Value::Array(Array::default()),
        5 => Value::Map(Map::default()),
        _ => Value::Simple(simple(part.number as u8)),
    }
}
