//! Arrays and tags of values, and how deep values are dropped.

use crate::map::Map;
use crate::value::Value;
use alloc::boxed::Box;
use alloc::vec::{self, Vec};
use core::mem;
use core::ops::{Deref, DerefMut};
use core::slice;

/// An array. It derefs to a slice of its members. A vector becomes one with `from`, an iterator with
/// `collect`.
#[derive(Clone, Debug, Default, PartialEq, Eq, PartialOrd, Ord, Hash)]
pub struct Array(Vec<Value>);

impl Array {
    /// Appends a member.
    pub fn push(&mut self, member: impl Into<Value>) {
        self.0.push(member.into());
    }
}

impl From<Vec<Value>> for Array {
    fn from(members: Vec<Value>) -> Array {
        Array(members)
    }
}

impl From<Array> for Vec<Value> {
    fn from(mut array: Array) -> Self {
        mem::take(&mut array.0)
    }
}

impl<T: Into<Value>> FromIterator<T> for Array {
    fn from_iter<I: IntoIterator<Item = T>>(members: I) -> Array {
        Array(members.into_iter().map(Into::into).collect())
    }
}

impl<T: Into<Value>> Extend<T> for Array {
    fn extend<I: IntoIterator<Item = T>>(&mut self, members: I) {
        self.0.extend(members.into_iter().map(Into::into));
    }
}

impl Deref for Array {
    type Target = [Value];

    fn deref(&self) -> &[Value] {
        &self.0
    }
}

impl DerefMut for Array {
    fn deref_mut(&mut self) -> &mut [Value] {
        &mut self.0
    }
}

impl IntoIterator for Array {
    type Item = Value;
    type IntoIter = vec::IntoIter<Value>;

    fn into_iter(self) -> Self::IntoIter {
        Vec::from(self).into_iter()
    }
}

impl<'a> IntoIterator for &'a Array {
    type Item = &'a Value;
    type IntoIter = slice::Iter<'a, Value>;

    fn into_iter(self) -> Self::IntoIter {
        self.0.iter()
    }
}

/// A tag: a number, and the content that it applies to.
#[derive(Clone, Debug, PartialEq, Eq, PartialOrd, Ord, Hash)]
pub struct Tag {
    number: u64,
    content: Box<Value>,
}

impl Tag {
    /// A tag with this number and content.
    pub fn new(number: u64, content: impl Into<Value>) -> Tag {
        let content = Box::new(content.into());
        Tag { number, content }
    }

    /// The number.
    pub fn number(&self) -> u64 {
        self.number
    }

    /// The content.
    pub fn content(&self) -> &Value {
        &self.content
    }

    /// The content, moved out of the tag.
    pub fn into_content(mut self) -> Value {
        self.take()
    }

    fn take(&mut self) -> Value {
        mem::replace(&mut self.content, Value::NULL)
    }
}

// The fields of a deep value would be dropped by recursion. So a container in a container is taken
// out of it first.

fn nests(value: &Value) -> bool {
    matches!(value, Value::Array(_) | Value::Map(_) | Value::Tag(_))
}

fn drop_nested(mut nested: Vec<Value>) {
    while let Some(value) = nested.pop() {
        match value {
            Value::Array(mut members) => {
                nested.extend(mem::take(&mut members.0).into_iter().filter(nests));
            }
            Value::Map(mut pairs) => {
                let values = pairs.take().into_iter().flat_map(<[Value; 2]>::from);
                nested.extend(values.filter(nests));
            }
            Value::Tag(mut tag) => nested.push(tag.take()),
            _ => {}
        }
    }
}

impl Drop for Array {
    fn drop(&mut self) {
        if self.0.iter().any(nests) {
            drop_nested(mem::take(&mut self.0));
        }
    }
}

impl Drop for Map {
    fn drop(&mut self) {
        if self.iter().any(|(key, value)| nests(key) || nests(value)) {
            let pairs = self.take().into_iter().flat_map(<[Value; 2]>::from);
            drop_nested(pairs.filter(nests).collect());
        }
    }
}

impl Drop for Tag {
    fn drop(&mut self) {
        if nests(&self.content) {
            drop_nested([self.take()].into());
        }
    }
}
