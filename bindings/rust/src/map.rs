//! Maps of values.

use crate::key::{Key, Sought};
use crate::map_parts::{search, Entry, Iter, Left, Pairs};
use crate::options::WIDEST;
use crate::value::Value;
use alloc::boxed::Box;
use alloc::collections::BTreeMap;
use alloc::vec::{self, Vec};
use core::cmp::Ordering;
use core::error::Error;
use core::fmt;
use core::hash::{Hash, Hasher};
use core::mem;

/// A map. No two of its keys are equal, and its pairs are in the order of their keys' canonical bytes.
///
/// ```
/// use naltvigo::{Map, Value};
///
/// let mut map = Map::new([("alg".into(), (-7).into()), (4.into(), "key".into())])?;
/// assert_eq!(map.get("alg"), Some(&Value::from(-7)));
/// assert_eq!(map.insert("alg", -8), Some(Value::from(-7)));
/// assert_eq!(map.remove(4), Some("key".into()));
/// *map.entry("uses").or_insert(0) = 1.into();
/// assert!(map.contains_key("uses") && map.keys().all(|key| key != &4.into()));
/// assert_eq!(Value::Map(map).to_string(), r#"{"alg": -8, "uses": 1}"#);
/// # Ok::<(), naltvigo::RepeatedKey>(())
/// ```
#[derive(Clone)]
pub struct Map(Pairs);

// The most pairs that a vector has after one is inserted.
const FEW: usize = 32;

impl Map {
    /// The map of these pairs, in any order. Fails if two keys are equal. If keys are equal, `collect`
    /// and `extend` keep the last pair, as with `BTreeMap`.
    pub fn new(pairs: impl IntoIterator<Item = (Value, Value)>) -> Result<Map, RepeatedKey> {
        let mut pairs: Vec<_> = pairs.into_iter().collect();
        pairs.sort_by(|one, other| one.0.cmp(&other.0));
        match pairs.windows(2).position(|two| two[0].0 == two[1].0) {
            Some(at) => Err(RepeatedKey(pairs.swap_remove(at).0)),
            None => Ok(Map(Pairs::Sorted(pairs))),
        }
    }

    // The map of pairs whose keys are known to differ.
    pub(crate) fn of_distinct(mut pairs: Vec<(Value, Value)>) -> Map {
        pairs.sort_by(|one, other| one.0.cmp(&other.0));
        Map(Pairs::Sorted(pairs))
    }

    /// The value at a key.
    pub fn get<'k>(&self, key: impl Into<Key<'k>>) -> Option<&Value> {
        sought(key.into(), |key| match &self.0 {
            Pairs::Sorted(pairs) => search(pairs, key).ok().map(|at| &pairs[at].1),
            Pairs::Tree(pairs) => pairs.get(key),
        })
    }

    /// The value at a key, to change it.
    pub fn get_mut<'k>(&mut self, key: impl Into<Key<'k>>) -> Option<&mut Value> {
        sought(key.into(), |key| match &mut self.0 {
            Pairs::Sorted(pairs) => search(pairs, key).ok().map(|at| &mut pairs[at].1),
            Pairs::Tree(pairs) => pairs.get_mut(key),
        })
    }

    /// Whether there is such a key.
    pub fn contains_key<'k>(&self, key: impl Into<Key<'k>>) -> bool {
        self.get(key).is_some()
    }

    /// Sets the value at a key, and returns the one that it replaces.
    pub fn insert(&mut self, key: impl Into<Value>, value: impl Into<Value>) -> Option<Value> {
        let (mut value, mut is_new) = (Some(value.into()), false);
        let found = self.entry(key).or_insert_with(|| {
            is_new = true;
            value.take().unwrap_or(Value::NULL)
        });
        value
            .filter(|_| !is_new)
            .map(|value| mem::replace(found, value))
    }

    /// Removes a pair, and returns its value.
    pub fn remove<'k>(&mut self, key: impl Into<Key<'k>>) -> Option<Value> {
        sought(key.into(), |key| match &mut self.0 {
            Pairs::Sorted(pairs) => search(pairs, key).ok().map(|at| pairs.remove(at).1),
            Pairs::Tree(pairs) => pairs.remove(key),
        })
    }

    /// The entry of a key, to insert or change its value.
    pub fn entry(&mut self, key: impl Into<Value>) -> Entry<'_> {
        if let Pairs::Sorted(pairs) = &mut self.0 {
            if pairs.len() >= FEW {
                let pairs = mem::take(pairs).into_iter().collect();
                self.0 = Pairs::Tree(Box::new(pairs));
            }
        }
        Entry {
            pairs: &mut self.0,
            key: key.into(),
        }
    }

    /// How many pairs there are.
    pub fn len(&self) -> usize {
        match &self.0 {
            Pairs::Sorted(pairs) => pairs.len(),
            Pairs::Tree(pairs) => pairs.len(),
        }
    }

    /// Whether there is no pair.
    pub fn is_empty(&self) -> bool {
        self.len() == 0
    }

    /// The pairs, in the order of their keys' canonical bytes.
    pub fn iter(&self) -> Iter<'_> {
        Iter(match &self.0 {
            Pairs::Sorted(pairs) => Left::Sorted(pairs.iter()),
            Pairs::Tree(pairs) => Left::Tree(pairs.iter()),
        })
    }

    /// The keys.
    pub fn keys(&self) -> impl DoubleEndedIterator<Item = &Value> + ExactSizeIterator {
        self.iter().map(|pair| pair.0)
    }

    /// The values, in the order of their keys.
    pub fn values(&self) -> impl DoubleEndedIterator<Item = &Value> + ExactSizeIterator {
        self.iter().map(|pair| pair.1)
    }

    /// The values, to change them.
    pub fn values_mut(&mut self) -> impl Iterator<Item = &mut Value> {
        let (sorted, tree) = match &mut self.0 {
            Pairs::Sorted(pairs) => (&mut pairs[..], None),
            Pairs::Tree(pairs) => (&mut [][..], Some(pairs)),
        };
        let tree = tree.into_iter().flat_map(|pairs| pairs.values_mut());
        sorted.iter_mut().map(|pair| &mut pair.1).chain(tree)
    }

    /// Keeps the pairs for which this is true.
    pub fn retain(&mut self, mut keep: impl FnMut(&Value, &mut Value) -> bool) {
        match &mut self.0 {
            Pairs::Sorted(pairs) => pairs.retain_mut(|(key, value)| keep(key, value)),
            Pairs::Tree(pairs) => pairs.retain(keep),
        }
    }

    // All pairs, in their order.
    pub(crate) fn take(&mut self) -> Vec<(Value, Value)> {
        match &mut self.0 {
            Pairs::Sorted(pairs) => mem::take(pairs),
            Pairs::Tree(pairs) => mem::take(&mut **pairs).into_iter().collect(),
        }
    }
}

// What a call returns of the key. None if its bytes are not an item.
fn sought<R>(key: Key<'_>, call: impl FnOnce(&dyn Sought) -> Option<R>) -> Option<R> {
    match (key, key.part()) {
        (_, Some(part)) => call(&part),
        (Key::Value(value), _) => call(value),
        (Key::Encoded(bytes), _) => call(&Value::decode(bytes, &WIDEST).ok()?),
        _ => None,
    }
}

impl Default for Map {
    fn default() -> Map {
        Map(Pairs::Sorted(Vec::new()))
    }
}

// Two maps are compared as the values that they are.
impl Ord for Map {
    fn cmp(&self, other: &Map) -> Ordering {
        let length = self.len().cmp(&other.len());
        length.then_with(|| self.iter().cmp(other.iter()))
    }
}

impl PartialOrd for Map {
    fn partial_cmp(&self, other: &Map) -> Option<Ordering> {
        Some(self.cmp(other))
    }
}

impl PartialEq for Map {
    fn eq(&self, other: &Map) -> bool {
        self.cmp(other).is_eq()
    }
}

impl Eq for Map {}

impl Hash for Map {
    fn hash<H: Hasher>(&self, state: &mut H) {
        state.write_usize(self.len());
        self.iter().for_each(|pair| pair.hash(state));
    }
}

impl fmt::Debug for Map {
    fn fmt(&self, f: &mut fmt::Formatter<'_>) -> fmt::Result {
        f.debug_map().entries(self).finish()
    }
}

impl From<BTreeMap<Value, Value>> for Map {
    fn from(pairs: BTreeMap<Value, Value>) -> Map {
        pairs.into_iter().collect()
    }
}

impl From<Map> for BTreeMap<Value, Value> {
    fn from(map: Map) -> Self {
        map.into_iter().collect()
    }
}

impl<K: Into<Value>, V: Into<Value>> FromIterator<(K, V)> for Map {
    fn from_iter<I: IntoIterator<Item = (K, V)>>(pairs: I) -> Map {
        let pairs = pairs.into_iter();
        let mut pairs: Vec<_> = pairs
            .map(|(key, value)| (key.into(), value.into()))
            .collect();
        // the sort is stable, so the last of equal keys comes first in what is turned around
        pairs.reverse();
        pairs.sort_by(|one: &(Value, Value), other| one.0.cmp(&other.0));
        pairs.dedup_by(|later, kept| later.0 == kept.0);
        Map(Pairs::Sorted(pairs))
    }
}

impl<K: Into<Value>, V: Into<Value>> Extend<(K, V)> for Map {
    fn extend<I: IntoIterator<Item = (K, V)>>(&mut self, pairs: I) {
        for (key, value) in pairs {
            self.insert(key, value);
        }
    }
}

impl IntoIterator for Map {
    type Item = (Value, Value);
    type IntoIter = vec::IntoIter<(Value, Value)>;

    fn into_iter(mut self) -> Self::IntoIter {
        self.take().into_iter()
    }
}

impl<'a> IntoIterator for &'a Map {
    type Item = (&'a Value, &'a Value);
    type IntoIter = Iter<'a>;

    fn into_iter(self) -> Self::IntoIter {
        self.iter()
    }
}

/// A key that occurs twice among the pairs of a map.
#[derive(Clone, PartialEq, Eq)]
pub struct RepeatedKey(pub Value);

impl fmt::Display for RepeatedKey {
    fn fmt(&self, f: &mut fmt::Formatter<'_>) -> fmt::Result {
        write!(f, "two keys of a map are {}", self.0)
    }
}

impl Error for RepeatedKey {}
