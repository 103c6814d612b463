//! Deterministic CBOR (RFC 8949, without floating-point numbers), by a library that is proved.
//!
//! You make a [`Value`] in Rust, or decode it from any encoding. An [`Item`] reads from canonical bytes
//! without a copy.
//!
//! ```
//! use naltvigo::{Item, Options, Value};
//!
//! let options = Options::default();
//! let value = Value::map([("Fun".into(), true.into()), ("Amt".into(), (-2).into())])?;
//! let bytes = value.encode(&options)?;
//! assert_eq!(bytes, b"\xa2\x63Amt\x21\x63Fun\xf5");
//!
//! let amount: i32 = Item::open(&bytes, &options)?.field("Amt")?;
//! assert_eq!(amount, -2);
//! # Ok::<(), Box<dyn std::error::Error>>(())
//! ```
//!
//! Each accepted input has one canonical encoding. For each refused input, the error has a reason and the
//! offset of the fault.
//!
//! ```
//! use naltvigo::{canonicalise, Options, Reason};
//!
//! // {"Fun": true, "Amt": -2}, without a length
//! let streamed = b"\xbf\x63Fun\xf5\x63Amt\x21\xff";
//! let canonical = canonicalise(streamed, &Options::default())?;
//! assert_eq!(canonical, b"\xa2\x63Amt\x21\x63Fun\xf5");
//!
//! // [1.5]
//! let refused = canonicalise(b"\x81\xf9\x3e\x00", &Options::default()).unwrap_err();
//! assert_eq!((refused.reason, refused.offset), (Reason::Float, 1));
//! # Ok::<(), naltvigo::Refused>(())
//! ```
//!
//! The library that this crate calls is proved. The crate itself is tested. The library has no state,
//! except for that of each [`Checker`], so any number of threads may call it at the same time. It allocates
//! with C's `malloc`; values use Rust's allocator.
//!
//! The crate needs `std` only for [`check_reader`] and for a [`Checker`] that is a writer. Without the
//! feature `std`, which is one of the default features, it is `no_std` with `alloc`.
//!
//! Later versions of this crate add no variants to [`Value`], [`View`], [`Kind`], [`Step`] and
//! [`Checked`]. They may add variants to other enums, and fields to [`Refused`] and [`Event`].
#![no_std]
#![warn(missing_docs)]
// except for the calls of the library
#![deny(unsafe_code)]

extern crate alloc;
#[cfg(feature = "std")]
extern crate std;

mod builder;
#[allow(unsafe_code)]
mod calls;
#[allow(unsafe_code)]
mod checker;
#[cfg(feature = "std")]
mod checker_io;
mod containers;
mod convert;
mod events;
mod extract;
mod get_error;
#[allow(unsafe_code)]
mod heads;
mod item;
mod key;
#[allow(unsafe_code)]
mod machine;
mod map;
mod map_parts;
mod options;
mod parts;
#[allow(unsafe_code)]
mod raw;
mod reader;
mod reason;
mod refused;
#[allow(unsafe_code)]
mod sequence;
mod value;

pub use calls::{canonicalise, canonicalise_into, check, check_canonical, diagnostic, same};
pub use checker::{Checked, Checker};
#[cfg(feature = "std")]
pub use checker_io::check_reader;
pub use containers::{Array, Tag};
pub use events::{Event, Events, Kind, PartEvents};
pub use get_error::GetError;
pub use item::{Item, Members, Pairs, View};
pub use key::Key;
pub use machine::{Machine, Step};
pub use map::{Map, RepeatedKey};
pub use map_parts::{Entry, Iter};
pub use options::{Keys, Options, Order};
pub use reader::{read_canonical_items, read_items, ReadError, ReadItems};
pub use reason::Reason;
pub use refused::{NotCompared, NotWritten, Refused, Side};
pub use sequence::{canonical_items, items, Items};
pub use value::{Simple, Value};

// its examples are tests
#[cfg(doctest)]
#[doc = include_str!("../README.md")]
struct Readme;

/// The version of the library that runs: one byte for each of its three numbers.
#[allow(unsafe_code)]
pub fn library_version() -> u32 {
    // SAFETY: it has no parameters.
    unsafe { raw::naltvigo_version_raw() }
}
