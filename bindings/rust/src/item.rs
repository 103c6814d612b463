//! Items in canonical bytes, borrowed.

use crate::builder::value_of_bytes;
use crate::calls::{check_canonical, diagnostic};
use crate::get_error::GetError;
use crate::heads::{self, NotFound};
use crate::key::Key;
use crate::options::{Options, Order, WIDEST};
use crate::parts::Part;
use crate::raw;
use crate::reason::Reason;
use crate::refused::Refused;
use crate::sequence::canonical_items;
use crate::value::{Simple, Value};
use alloc::vec::Vec;
use core::fmt;
use core::hash::{Hash, Hasher};
use core::iter::FusedIterator;

/// An item in its canonical bytes, which it borrows. Reading from it needs no memory, except for a
/// [`GetError`]'s text.
///
/// Two items in the same order of keys are equal if and only if their values are the same. `Display` and
/// `Debug` write the diagnostic text.
///
/// ```
/// use naltvigo::{Item, Options, Value};
///
/// let claims = Value::map([(4.into(), 1444064944.into()), (1.into(), "as.example".into())])?;
/// let bytes = claims.encode(&Options::default())?;
///
/// let item = Item::open(&bytes, &Options::default())?;
/// let expires: u64 = item.field(4)?;
/// let issuer: &str = item.field(1)?;
/// assert_eq!((expires, issuer), (1444064944, "as.example"));
/// assert!(item.get("no such key").is_none());
/// let wrong = item.field::<&str>(4).unwrap_err();
/// assert_eq!(wrong.to_string(), "the value at key 4 is an integer, not a text");
/// # Ok::<(), Box<dyn std::error::Error>>(())
/// ```
#[derive(Clone, Copy)]
pub struct Item<'a> {
    bytes: &'a [u8],
    order: Order,
    kind: u32,
    number: u64,
    // where the payload, or the first member, begins in the bytes
    content: usize,
}

/// What an item is.
#[derive(Clone, Debug)]
#[allow(missing_docs)]
pub enum View<'a> {
    Unsigned(u64),
    /// The number -1 - n.
    Negative(u64),
    Bytes(&'a [u8]),
    Text(&'a str),
    Array(Members<'a>),
    Map(Pairs<'a>),
    Tag(u64, Item<'a>),
    Simple(Simple),
}

// A string of up to this many bytes is looked up without memory.
const SHORT: usize = 64;

impl<'a> Item<'a> {
    /// The item of an input that is one item in its canonical bytes. Otherwise it fails as
    /// [`check_canonical`] does. [`canonicalise`](crate::canonicalise) input in another encoding first.
    pub fn open(input: &'a [u8], options: &Options) -> Result<Item<'a>, Refused> {
        check_canonical(input, options)?;
        Ok(Item::first(input, options.order()))
    }

    /// The item in canonical bytes at the start of a sequence, and the bytes after it. None if no byte is
    /// left.
    pub fn open_front(
        input: &'a [u8],
        options: &Options,
    ) -> Option<Result<(Item<'a>, &'a [u8]), Refused>> {
        let item = canonical_items(input, options).next()?;
        Some(item.map(|bytes| {
            let item = Item::first(bytes, options.order());
            (item, &input[bytes.len()..])
        }))
    }

    // The first item of some, which are in canonical bytes.
    fn first(bytes: &'a [u8], order: Order) -> Item<'a> {
        let item = heads::item_at(bytes, 0).expect("an item begins there");
        Item::of(bytes, item, order)
    }

    fn of(input: &'a [u8], item: raw::Item, order: Order) -> Item<'a> {
        Item {
            bytes: &input[item.offset as usize..item.end as usize],
            order,
            kind: item.kind,
            number: item.number,
            content: (item.content - item.offset) as usize,
        }
    }

    /// Its canonical bytes: to hash, to sign, to look up.
    pub fn bytes(self) -> &'a [u8] {
        self.bytes
    }

    /// What it is.
    pub fn view(self) -> View<'a> {
        let (number, content) = (self.number, &self.bytes[self.content..]);
        let members = |left| Members {
            left,
            rest: content,
            order: self.order,
        };
        match self.kind {
            0 => View::Unsigned(number),
            1 => View::Negative(number),
            2 => View::Bytes(content),
            3 => View::Text(core::str::from_utf8(content).expect("canonical texts are UTF-8")),
            4 => View::Array(members(number)),
            5 => View::Map(Pairs(members(2 * number))),
            6 => View::Tag(number, Item::first(content, self.order)),
            _ => View::Simple(Simple::new(number as u8).expect("no simple value is 24 to 31")),
        }
    }

    /// The value at a key of a map. None if this is not a map, or has no such key.
    ///
    /// It reads the pairs before the key. So if you look up many keys of a large map, decode it to a
    /// [`Value`](crate::Value).
    pub fn get<'k>(self, key: impl Into<Key<'k>>) -> Option<Item<'a>> {
        self.find(key.into()).ok()
    }

    /// Whether this is a map with such a key.
    pub fn contains_key<'k>(self, key: impl Into<Key<'k>>) -> bool {
        self.get(key).is_some()
    }

    /// The value at a key of a map, as this type: an item, an integer, `&str`, `String`, `&[u8]`,
    /// `Vec<u8>`, `bool`, or a type with `TryFrom<Item>`. For an array or a map, get an item, and call
    /// [`into_members`](Item::into_members) or [`into_pairs`](Item::into_pairs).
    pub fn field<'k, T>(self, key: impl Into<Key<'k>>) -> Result<T, GetError>
    where
        T: TryFrom<Item<'a>>,
        GetError: From<T::Error>,
    {
        let key = key.into();
        let value = self.find(key).map_err(|why| match why {
            NotFound::NoKey => GetError::not_found(key),
            NotFound::NotMap => GetError::wrong_kind(self.part(), "a map"),
        })?;
        T::try_from(value).map_err(|why| GetError::from(why).at(key))
    }

    /// The same, or none if there is no such key or its value is null.
    pub fn optional<'k, T>(self, key: impl Into<Key<'k>>) -> Result<Option<T>, GetError>
    where
        T: TryFrom<Item<'a>>,
        GetError: From<T::Error>,
    {
        let key = key.into();
        match self.find(key) {
            Err(NotFound::NoKey) => Ok(None),
            Ok(value) if matches!(value.view(), View::Simple(Simple::NULL)) => Ok(None),
            Ok(value) => T::try_from(value)
                .map(Some)
                .map_err(|why| GetError::from(why).at(key)),
            Err(NotFound::NotMap) => Err(GetError::wrong_kind(self.part(), "a map")),
        }
    }

    // Its head, to say what it is.
    pub(crate) fn part(self) -> Part<'a> {
        Part {
            kind: self.kind as u8,
            number: self.number,
            payload: &[],
        }
    }

    fn find(self, key: Key<'_>) -> Result<Item<'a>, NotFound> {
        match (key, key.part()) {
            (_, Some(part)) if part.payload.len() <= SHORT => {
                let mut space = [0; heads::HEAD_MAX + SHORT];
                let head = heads::put(part.kind, part.number, &mut space);
                let size = head + part.payload.len();
                space[head..size].copy_from_slice(part.payload);
                self.find_bytes(&space[..size])
            }
            (_, Some(part)) => {
                let mut encoded = Vec::new();
                heads::append(part, &mut encoded);
                self.find_bytes(&encoded)
            }
            (Key::Encoded(bytes), _) => self.find_bytes(bytes),
            (Key::Value(value), _) => match value.encode(&WIDEST.with_order(self.order)) {
                Ok(bytes) => self.find_bytes(&bytes),
                Err(why) if why.reason == Reason::Memory => panic!("{why}"),
                // deeper than any item
                Err(_) => Err(NotFound::NoKey),
            },
            _ => Err(NotFound::NoKey),
        }
    }

    fn find_bytes(self, key: &[u8]) -> Result<Item<'a>, NotFound> {
        let value = heads::find(self.bytes, key)?;
        Ok(Item::of(self.bytes, value, self.order))
    }

    /// The members of an array.
    pub fn members(self) -> Result<Members<'a>, GetError> {
        match self.view() {
            View::Array(members) => Ok(members),
            _ => Err(GetError::wrong_kind(self.part(), "an array")),
        }
    }

    /// The pairs of a map, in the order of their keys.
    pub fn pairs(self) -> Result<Pairs<'a>, GetError> {
        match self.view() {
            View::Map(pairs) => Ok(pairs),
            _ => Err(GetError::wrong_kind(self.part(), "a map")),
        }
    }

    /// The member of an array at an index. None if this is not an array, or has no such member. It reads
    /// the members before that one.
    pub fn at(self, index: usize) -> Option<Item<'a>> {
        match self.view() {
            View::Array(mut members) => members.nth(index),
            _ => None,
        }
    }

    /// The content of a tag with this number. None if this is another tag, or is not a tag.
    pub fn tagged(self, number: u64) -> Option<Item<'a>> {
        match self.view() {
            View::Tag(found, content) if found == number => Some(content),
            _ => None,
        }
    }

    /// The value, owned. Each part of the item is read only once. So to read all of a deep item, use this.
    pub fn to_value(self) -> Value {
        value_of_bytes(self.bytes, self.order)
    }
}

impl PartialEq for Item<'_> {
    fn eq(&self, other: &Self) -> bool {
        self.bytes == other.bytes
    }
}

impl Eq for Item<'_> {}

impl Hash for Item<'_> {
    fn hash<H: Hasher>(&self, state: &mut H) {
        self.bytes.hash(state);
    }
}

impl fmt::Display for Item<'_> {
    fn fmt(&self, f: &mut fmt::Formatter<'_>) -> fmt::Result {
        match diagnostic(self.bytes, &WIDEST) {
            Ok(text) => f.write_str(&text),
            // only if memory was refused
            Err(refused) => refused.fmt(f),
        }
    }
}

impl fmt::Debug for Item<'_> {
    fn fmt(&self, f: &mut fmt::Formatter<'_>) -> fmt::Result {
        fmt::Display::fmt(self, f)
    }
}

/// The members of an array.
#[derive(Clone, Debug)]
pub struct Members<'a> {
    left: u64,
    rest: &'a [u8],
    order: Order,
}

impl<'a> Iterator for Members<'a> {
    type Item = Item<'a>;

    fn next(&mut self) -> Option<Item<'a>> {
        self.left = self.left.checked_sub(1)?;
        let item = Item::first(self.rest, self.order);
        self.rest = &self.rest[item.bytes.len()..];
        Some(item)
    }

    fn size_hint(&self) -> (usize, Option<usize>) {
        (self.left as usize, Some(self.left as usize))
    }
}

impl ExactSizeIterator for Members<'_> {}
impl FusedIterator for Members<'_> {}

/// The pairs of a map, in the order of their keys.
#[derive(Clone, Debug)]
pub struct Pairs<'a>(Members<'a>);

impl<'a> Iterator for Pairs<'a> {
    type Item = (Item<'a>, Item<'a>);

    fn next(&mut self) -> Option<Self::Item> {
        Some((self.0.next()?, self.0.next()?))
    }

    fn size_hint(&self) -> (usize, Option<usize>) {
        let pairs = self.0.len() / 2;
        (pairs, Some(pairs))
    }
}

impl ExactSizeIterator for Pairs<'_> {}
impl FusedIterator for Pairs<'_> {}
