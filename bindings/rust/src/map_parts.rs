//! The parts of a map: its pairs in one of two forms, an entry, and an iterator.

use crate::key::Sought;
use crate::value::Value;
use alloc::boxed::Box;
use alloc::collections::btree_map::{self, BTreeMap};
use alloc::vec::Vec;
use core::iter::FusedIterator;
use core::slice;

// A long vector is slow to insert into, and becomes a tree then. Else a vector needs less memory, and
// fewer comparisons.
#[derive(Clone)]
pub(crate) enum Pairs {
    Sorted(Vec<(Value, Value)>),
    // boxed, so that a value has four words
    #[allow(clippy::box_collection)]
    Tree(Box<BTreeMap<Value, Value>>),
}

// Where a key is in sorted pairs, or where it belongs.
pub(crate) fn search(pairs: &[(Value, Value)], key: &dyn Sought) -> Result<usize, usize> {
    pairs.binary_search_by(|pair| {
        let found: &dyn Sought = &pair.0;
        found.cmp(key)
    })
}

/// The entry of a key in a [`Map`].
pub struct Entry<'m> {
    pub(crate) pairs: &'m mut Pairs,
    pub(crate) key: Value,
}

impl<'m> Entry<'m> {
    /// The key.
    pub fn key(&self) -> &Value {
        &self.key
    }

    /// Changes the value, if there is one.
    #[must_use]
    pub fn and_modify(self, change: impl FnOnce(&mut Value)) -> Entry<'m> {
        let found = match &mut *self.pairs {
            Pairs::Sorted(pairs) => search(pairs, &self.key).ok().map(|at| &mut pairs[at].1),
            Pairs::Tree(pairs) => pairs.get_mut(&self.key),
        };
        if let Some(value) = found {
            change(value);
        }
        self
    }

    /// The value; this one if there was none.
    pub fn or_insert(self, value: impl Into<Value>) -> &'m mut Value {
        self.or_insert_with(|| value.into())
    }

    /// The value; what this returns if there was none.
    pub fn or_insert_with<V: Into<Value>>(self, value: impl FnOnce() -> V) -> &'m mut Value {
        match self.pairs {
            Pairs::Tree(pairs) => pairs.entry(self.key).or_insert_with(|| value().into()),
            Pairs::Sorted(pairs) => {
                let at = search(pairs, &self.key).unwrap_or_else(|at| {
                    pairs.insert(at, (self.key, value().into()));
                    at
                });
                &mut pairs[at].1
            }
        }
    }
}

/// The pairs of a [`Map`], in the order of their keys.
#[derive(Clone)]
pub struct Iter<'a>(pub(crate) Left<'a>);

#[derive(Clone)]
pub(crate) enum Left<'a> {
    Sorted(slice::Iter<'a, (Value, Value)>),
    Tree(btree_map::Iter<'a, Value, Value>),
}

impl<'a> Iterator for Iter<'a> {
    type Item = (&'a Value, &'a Value);

    fn next(&mut self) -> Option<Self::Item> {
        match &mut self.0 {
            Left::Sorted(pairs) => pairs.next().map(|(key, value)| (key, value)),
            Left::Tree(pairs) => pairs.next(),
        }
    }

    fn size_hint(&self) -> (usize, Option<usize>) {
        match &self.0 {
            Left::Sorted(pairs) => pairs.size_hint(),
            Left::Tree(pairs) => pairs.size_hint(),
        }
    }
}

impl DoubleEndedIterator for Iter<'_> {
    fn next_back(&mut self) -> Option<Self::Item> {
        match &mut self.0 {
            Left::Sorted(pairs) => pairs.next_back().map(|(key, value)| (key, value)),
            Left::Tree(pairs) => pairs.next_back(),
        }
    }
}

impl ExactSizeIterator for Iter<'_> {}
impl FusedIterator for Iter<'_> {}
