//! Values as a list of parts: heads in the order of their bytes, each with the payload of a string.
//!
//! Code that reads all of a value, or makes one, uses this list. So it does not recurse, and a deep value
//! cannot overflow the stack.

use crate::map_parts;
use crate::raw;
use crate::value::Value;
use alloc::vec::Vec;
use core::slice;

/// A head, and for a string the payload after it. The order of two parts is the order of their bytes,
/// because a greater number never has a shorter head.
#[derive(Clone, Copy, Debug, PartialEq, Eq, PartialOrd, Ord, Hash)]
pub(crate) struct Part<'a> {
    pub kind: u8,
    pub number: u64,
    pub payload: &'a [u8],
}

impl<'a> Part<'a> {
    /// The part of an item of these bytes.
    pub fn of_item(item: &raw::Item, bytes: &'a [u8]) -> Part<'a> {
        let payload = match item.kind {
            2 | 3 => &bytes[item.content as usize..item.end as usize],
            _ => &[],
        };
        Part {
            kind: item.kind as u8,
            number: item.number,
            payload,
        }
    }

    /// The first part of a value.
    pub fn of(value: &'a Value) -> Part<'a> {
        let payload: &[u8] = match value {
            Value::Bytes(bytes) => bytes,
            Value::Text(text) => text.as_bytes(),
            _ => &[],
        };
        let (kind, number) = match value {
            Value::Unsigned(number) => (0, *number),
            Value::Negative(number) => (1, *number),
            Value::Bytes(_) => (2, payload.len() as u64),
            Value::Text(_) => (3, payload.len() as u64),
            Value::Array(members) => (4, members.len() as u64),
            Value::Map(pairs) => (5, pairs.len() as u64),
            Value::Tag(tag) => (6, tag.number()),
            Value::Simple(simple) => (7, simple.number().into()),
        };
        Part {
            kind,
            number,
            payload,
        }
    }
}

/// The parts of a value.
pub(crate) struct Parts<'a> {
    first: Option<&'a Value>,
    open: Vec<Rest<'a>>,
}

// What is still to come of a container.
enum Rest<'a> {
    Members(slice::Iter<'a, Value>),
    Pairs(map_parts::Iter<'a>),
    One(&'a Value),
}

impl<'a> Parts<'a> {
    pub fn of_value(value: &'a Value) -> Parts<'a> {
        Parts {
            first: Some(value),
            open: Vec::new(),
        }
    }

    fn next_value(&mut self) -> Option<&'a Value> {
        if let Some(first) = self.first.take() {
            return Some(first);
        }
        loop {
            match self.open.pop()? {
                Rest::One(value) => return Some(value),
                Rest::Members(mut left) => {
                    if let Some(member) = left.next() {
                        self.open.push(Rest::Members(left));
                        return Some(member);
                    }
                }
                Rest::Pairs(mut left) => {
                    if let Some((key, value)) = left.next() {
                        self.open.push(Rest::Pairs(left));
                        self.open.push(Rest::One(value));
                        return Some(key);
                    }
                }
            }
        }
    }
}

impl<'a> Iterator for Parts<'a> {
    type Item = Part<'a>;

    fn next(&mut self) -> Option<Part<'a>> {
        let value = self.next_value()?;
        match value {
            Value::Array(members) => self.open.push(Rest::Members(members.iter())),
            Value::Map(pairs) => self.open.push(Rest::Pairs(pairs.iter())),
            Value::Tag(tag) => self.open.push(Rest::One(tag.content())),
            _ => {}
        }
        Some(Part::of(value))
    }
}
