//! The order of keys, their kinds, and the limits on an item.

use crate::raw::DEPTH_MAX;

/// The order of the keys of a map, by their canonical bytes.
#[derive(Clone, Copy, Debug, Default, PartialEq, Eq, Hash)]
#[non_exhaustive]
pub enum Order {
    /// Lexicographic (RFC 8949, section 4.2.1).
    #[default]
    Bytewise = 0,
    /// The shorter key first, then lexicographic (section 4.2.3).
    LengthFirst = 1,
}

/// The kinds of keys that the maps of an item may have, at every depth.
#[derive(Clone, Copy, Debug, Default, PartialEq, Eq, Hash)]
#[non_exhaustive]
pub enum Keys {
    /// Every item (RFC 8949, section 3.1).
    #[default]
    Any = 0,
    /// Integers, and texts in one piece or in chunks.
    IntegersAndTexts = 1,
}

/// The order of keys, their kinds, and the limits on an item.
///
/// ```
/// use naltvigo::{check, Keys, Options, Order, Reason};
///
/// let options = Options::default(); // bytewise, keys of any kind, 64 levels, 2^20 bytes
/// let deeper = options.with_depth(1024).unwrap().with_order(Order::LengthFirst);
/// assert_eq!((deeper.depth(), deeper.bytes()), (1024, 1 << 20));
/// assert!(options.with_depth(1025).is_none());
///
/// let map = b"\xa1\x80\x00"; // {[]: 0}
/// assert!(check(map, &deeper).is_ok());
/// let refused = check(map, &deeper.with_keys(Keys::IntegersAndTexts)).unwrap_err();
/// assert_eq!((refused.reason, refused.offset), (Reason::KeyKind, 1));
/// ```
#[derive(Clone, Copy, Debug, PartialEq, Eq, Hash)]
pub struct Options {
    order: Order,
    keys: Keys,
    depth: u16,
    bytes: u64,
}

impl Options {
    /// These options with other limits: how many levels arrays, maps and tags may nest, 0 to 1024,
    /// and how many bytes an item and its canonical bytes may have, 0 to 2^62. None if one of the two
    /// is greater.
    #[must_use]
    pub const fn with_limits(self, depth: u16, bytes: u64) -> Option<Options> {
        if depth as usize > DEPTH_MAX || bytes > 1 << 62 {
            return None;
        }
        Some(Options {
            depth,
            bytes,
            ..self
        })
    }

    /// These options with another depth limit, in levels, 0 to 1024. None if it is greater.
    #[must_use]
    pub const fn with_depth(self, depth: u16) -> Option<Options> {
        self.with_limits(depth, self.bytes)
    }

    /// These options with another byte limit, 0 to 2^62. None if it is greater.
    #[must_use]
    pub const fn with_bytes(self, bytes: u64) -> Option<Options> {
        self.with_limits(self.depth, bytes)
    }

    /// These options with another order.
    #[must_use]
    pub const fn with_order(self, order: Order) -> Options {
        Options { order, ..self }
    }

    /// These options for other kinds of keys. [`Machine`](crate::Machine) and
    /// [`Events`](crate::Events) don't look at keys.
    #[must_use]
    pub const fn with_keys(self, keys: Keys) -> Options {
        Options { keys, ..self }
    }

    /// The order of keys. Calls that need no order ignore it.
    pub const fn order(&self) -> Order {
        self.order
    }

    /// The kinds of keys that maps may have.
    pub const fn keys(&self) -> Keys {
        self.keys
    }

    /// How many levels arrays, maps and tags may nest, 0 to 1024.
    pub const fn depth(&self) -> u16 {
        self.depth
    }

    /// How many bytes an item, and its canonical bytes, may have, 0 to 2^62.
    pub const fn bytes(&self) -> u64 {
        self.bytes
    }
}

impl Default for Options {
    fn default() -> Options {
        Options {
            order: Order::Bytewise,
            keys: Keys::Any,
            depth: 64,
            bytes: 1 << 20,
        }
    }
}

/// The widest limits: for what was accepted within some already, and to show a value.
pub(crate) const WIDEST: Options = Options {
    order: Order::Bytewise,
    keys: Keys::Any,
    depth: DEPTH_MAX as u16,
    bytes: 1 << 62,
};
