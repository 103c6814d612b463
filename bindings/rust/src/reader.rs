//! The items of a sequence that comes from a reader.

use crate::checker::{Checked, Checker};
use crate::machine::Machine;
use crate::options::Options;
use crate::reason::Reason;
use crate::refused::Refused;
use crate::sequence::{canonical_items, items};
use alloc::boxed::Box;
use alloc::vec::Vec;
use core::error::Error;
use core::fmt;
use core::mem;

/// The items of a sequence (RFC 8742) from a reader, in any encoding, like [`items`] for a slice. `read`
/// writes to the start of a buffer and returns the number of bytes, 0 at the end.
///
/// An item is returned when its last byte has been read. The memory is bounded by the longest item, which
/// the options limit, and one buffer for `read`.
///
/// ```
/// use naltvigo::{read_items, Options};
/// use std::io::Read;
///
/// let mut file = &b"\x18\x00\x61a"[..]; // or a std::fs::File
/// let found: Result<Vec<Vec<u8>>, _> =
///     read_items(|buffer| file.read(buffer), &Options::default()).collect();
/// assert_eq!(found?, [&b"\x18\x00"[..], b"\x61a"]);
/// # Ok::<(), naltvigo::ReadError<std::io::Error>>(())
/// ```
pub fn read_items<E, R>(read: R, options: &Options) -> ReadItems<R>
where
    R: FnMut(&mut [u8]) -> Result<usize, E>,
{
    ReadItems {
        read,
        buffer: Vec::new(),
        start: 0,
        end: 0,
        offset: 0,
        cut: None,
        ended: false,
        canonical: false,
        options: *options,
    }
}

/// The items of a sequence from a reader, each in its canonical bytes, like [`canonical_items`] for a
/// slice. An item that is not canonical is refused at the first wrong byte, and nothing more is read.
pub fn read_canonical_items<E, R>(read: R, options: &Options) -> ReadItems<R>
where
    R: FnMut(&mut [u8]) -> Result<usize, E>,
{
    ReadItems {
        canonical: true,
        ..read_items(read, options)
    }
}

/// Why no item is returned, or accepted.
#[derive(Clone, PartialEq, Eq)]
pub enum ReadError<E> {
    /// The item is refused. The offset counts from the item's first byte. An iterator ends after it.
    Refused(Refused),
    /// The reader failed. The next call of an iterator tries it again, and nothing is lost.
    Read(E),
}

impl<E> From<Refused> for ReadError<E> {
    fn from(refused: Refused) -> ReadError<E> {
        ReadError::Refused(refused)
    }
}

impl<E: fmt::Display> fmt::Display for ReadError<E> {
    fn fmt(&self, f: &mut fmt::Formatter<'_>) -> fmt::Result {
        match self {
            ReadError::Refused(refused) => refused.fmt(f),
            ReadError::Read(error) => error.fmt(f),
        }
    }
}

impl<E: Error> Error for ReadError<E> {}

// The size of the first buffer.
const AT_A_TIME: usize = 1 << 16;

/// The items of a sequence from a reader: what [`read_items`] and [`read_canonical_items`] return.
#[derive(Debug)]
pub struct ReadItems<R> {
    read: R,
    // The bytes that were read and not returned are those from `start` to `end`.
    buffer: Vec<u8>,
    start: usize,
    end: usize,
    offset: u64,
    // The state of an item that is not complete.
    cut: Option<Cut>,
    ended: bool,
    canonical: bool,
    options: Options,
}

// Reads the bytes of an item as they arrive, so that each is read once.
#[derive(Debug)]
enum Cut {
    // An item in any encoding: whether it is well-formed.
    Any(Box<Machine>),
    // A canonical item: it is refused at the first wrong byte, and no more of it is read.
    Canonical(Checker),
}

impl Cut {
    // Whether the item needs more bytes than these. It has read some of them before.
    fn needs_more(&mut self, came: &[u8]) -> bool {
        match self {
            Cut::Any(machine) => machine.needs_more(&came[machine.consumed() as usize..]),
            Cut::Canonical(checker) => {
                let rest = &came[checker.consumed() as usize..];
                checker.feed(rest) == Ok(Checked::More)
            }
        }
    }
}

impl<R> ReadItems<R> {
    /// The offset in the sequence of the next item, or of the one that was refused.
    pub fn offset(&self) -> u64 {
        self.offset
    }

    // The item at the front. None if more bytes are needed, or none are left.
    fn front(&mut self) -> Option<Result<Vec<u8>, Refused>> {
        let came = &self.buffer[self.start..self.end];
        if !self.ended && self.cut.as_mut().is_some_and(|cut| cut.needs_more(came)) {
            return None;
        }
        let mut found = if self.canonical {
            canonical_items(came, &self.options)
        } else {
            items(came, &self.options)
        };
        match found.next()? {
            Ok(item) => {
                let item = item.to_vec();
                self.cut = None;
                self.start += item.len();
                self.offset += item.len() as u64;
                Some(Ok(item))
            }
            Err(refused) if refused.reason == Reason::Truncated && !self.ended => self.begin_cut(),
            Err(refused) => self.refuse(refused),
        }
    }

    fn begin_cut(&mut self) -> Option<Result<Vec<u8>, Refused>> {
        if self.cut.is_some() {
            // what took the bytes had no memory for a key
            return self.refuse(Refused::at(Reason::Memory, 0, &[], &self.options));
        }
        self.cut = Some(if self.canonical {
            match Checker::new(&self.options) {
                Ok(checker) => Cut::Canonical(checker),
                Err(refused) => return self.refuse(refused),
            }
        } else {
            Cut::Any(Box::new(Machine::new(&self.options)))
        });
        None
    }

    fn refuse(&mut self, refused: Refused) -> Option<Result<Vec<u8>, Refused>> {
        self.start = self.end;
        self.ended = true;
        Some(Err(refused))
    }

    fn fill<E>(&mut self) -> Result<(), E>
    where
        R: FnMut(&mut [u8]) -> Result<usize, E>,
    {
        self.move_to_the_front();
        if self.buffer.len() == self.end {
            // more than the byte limit of an item is never stored
            let limit = usize::try_from(self.options.bytes()).unwrap_or(usize::MAX);
            let most = limit.saturating_add(AT_A_TIME);
            let size = (2 * self.end).max(AT_A_TIME).min(most);
            self.buffer.resize(size, 0);
        }
        let space = &mut self.buffer[self.end..];
        let count = (self.read)(space)?;
        assert!(count <= space.len(), "more came than there is space for");
        self.end += count;
        self.ended = count == 0;
        Ok(())
    }

    // Once for each item, however few bytes a read returns.
    fn move_to_the_front(&mut self) {
        let start = mem::take(&mut self.start);
        if start > 0 {
            self.buffer.copy_within(start..self.end, 0);
            self.end -= start;
        }
    }
}

impl<E, R> Iterator for ReadItems<R>
where
    R: FnMut(&mut [u8]) -> Result<usize, E>,
{
    type Item = Result<Vec<u8>, ReadError<E>>;

    fn next(&mut self) -> Option<Self::Item> {
        loop {
            if let Some(found) = self.front() {
                return Some(found.map_err(ReadError::Refused));
            }
            if self.ended {
                return None;
            }
            if let Err(error) = self.fill() {
                return Some(Err(ReadError::Read(error)));
            }
        }
    }
}
