//! The strict check of an item that arrives in parts.

use crate::options::Options;
use crate::raw::{self, MORE, OK};
use crate::reason::Reason;
use crate::refused::Refused;
use core::ptr;

/// What a [`Checker`] returns after a part of an item that is not refused.
#[derive(Clone, Copy, Debug, PartialEq, Eq)]
pub enum Checked {
    /// All of the part was used. Nothing is wrong so far, and the item needs more bytes.
    More,
    /// The item is complete and canonical. It ends after this many bytes of the part.
    Complete(usize),
}

/// Checks that an item that arrives in parts of any length is in its canonical bytes.
///
/// After each part it returns what [`check_canonical`](crate::check_canonical) returns for all bytes of the
/// item so far, except that it returns [`Checked::More`] where that is `Truncated`. It does not matter where
/// the item is cut into parts. So an item is refused at the first wrong byte.
///
/// A `Checker` stores the last key of each open map and the key that is not complete, but no other byte of
/// the item. It also needs 10.3 KiB at any depth, and 24 bytes for each open map (24 KiB at 1,024 levels). If
/// you have all bytes, call `check_canonical`: a `Checker` takes 1.2 to 2.2 times as long for records, and 6
/// to 16 times as long for single integers and for a large map of small pairs.
///
/// ```
/// use naltvigo::{Checked, Checker, Options, Reason};
///
/// let mut checker = Checker::new(&Options::default())?;
/// // {"a": 1, "b": 2}, and a byte that follows it
/// assert_eq!(checker.feed(b"\xa2\x61a\x01\x61")?, Checked::More);
/// assert_eq!(checker.feed(b"b\x02\xf6")?, Checked::Complete(2));
/// assert_eq!(checker.end()?, 7);
///
/// checker.restart();
/// // the key "a" after "b": refused with its last byte
/// let refused = checker.feed(b"\xa2\x61b\x02\x61a").unwrap_err();
/// assert_eq!((refused.reason, refused.offset), (Reason::KeyOrder, 4));
/// # Ok::<(), naltvigo::Refused>(())
/// ```
///
/// With the feature `std`, a checker is a [`Write`](std::io::Write) for exactly one item, and
/// [`check_reader`](crate::check_reader) checks what a reader returns.
#[derive(Debug)]
pub struct Checker {
    raw: raw::Checker,
    options: Options,
    consumed: u64,
    // Whether a byte after the item was refused: the library does not refuse it.
    trailing: bool,
}

// SAFETY: no one else has the memory, and the library reads no state of a thread.
unsafe impl Send for Checker {}

// SAFETY: only calls that borrow the checker mutably pass the memory to the library.
unsafe impl Sync for Checker {}

impl Checker {
    /// A checker before an item's first byte. If there is no memory for the checker, the error is
    /// [`Reason::Memory`].
    pub fn new(options: &Options) -> Result<Checker, Refused> {
        let mut raw = raw::Checker {
            memory: ptr::null_mut(),
        };
        // SAFETY: the handle is borrowed mutably for the call.
        let status = unsafe {
            raw::naltvigo_checker_new_raw(
                options.order() as u32,
                options.keys() as u32,
                options.depth().into(),
                options.bytes(),
                &mut raw,
            )
        };
        match status {
            OK => Ok(Checker {
                raw,
                options: *options,
                consumed: 0,
                trailing: false,
            }),
            // options are in range
            _ => Err(Refused::at(Reason::Memory, 0, &[], options)),
        }
    }

    /// How many bytes of the item were consumed.
    pub fn consumed(&self) -> u64 {
        self.consumed
    }

    /// Checks the next part of the item. A part of no bytes is allowed. It does not mean that the item ends.
    ///
    /// After the item is complete, a call consumes nothing and returns `Complete(0)`. After a refusal, a call
    /// returns the same refusal. Its offset counts from the item's first byte. After [`Reason::Memory`], call
    /// [`restart`](Checker::restart).
    pub fn feed(&mut self, part: &[u8]) -> Result<Checked, Refused> {
        if self.trailing {
            return Err(self.refuse_trailing());
        }
        let (mut used, mut refusal) = (0, raw::Refusal::default());
        // SAFETY: the library made the handle, and it is not freed. The part is as long as is said.
        let status = unsafe {
            raw::naltvigo_checker_feed_raw(
                &mut self.raw,
                part.as_ptr(),
                part.len(),
                &mut used,
                &mut refusal,
            )
        };
        self.consumed += used as u64;
        match status {
            MORE => Ok(Checked::More),
            OK => Ok(Checked::Complete(used)),
            _ => Err(Refused::of_parts(refusal)),
        }
    }

    /// For the end of the input: returns the number of bytes of the item. If the item is not complete, it is
    /// refused as [`Reason::Truncated`]. After that, more bytes may follow. Any other refusal stays until
    /// [`restart`](Checker::restart).
    pub fn end(&mut self) -> Result<u64, Refused> {
        let mut refusal = raw::Refusal::default();
        // SAFETY: the library made the handle, and it is not freed.
        let status = unsafe { raw::naltvigo_checker_end_raw(&mut self.raw, &mut refusal) };
        match status {
            OK if self.trailing => Err(self.refuse_trailing()),
            OK => Ok(self.consumed),
            _ => Err(Refused::of_parts(refusal)),
        }
    }

    /// Begins another item, with the same options. The item before it may be complete, refused or not
    /// complete.
    pub fn restart(&mut self) {
        // SAFETY: the library made the handle, and it is not freed. The order is one, so it returns OK.
        unsafe {
            raw::naltvigo_checker_restart_raw(self.options.order() as u32, &mut self.raw);
        }
        self.consumed = 0;
        self.trailing = false;
    }

    // Refuses a byte after the item.
    pub(crate) fn refuse_trailing(&mut self) -> Refused {
        self.trailing = true;
        Refused::of_parts(raw::Refusal {
            reason: Reason::Trailing.number().into(),
            offset: self.consumed,
            consumed: self.consumed,
        })
    }
}

impl Drop for Checker {
    fn drop(&mut self) {
        // SAFETY: the library made the handle, and it is freed here alone.
        unsafe {
            raw::naltvigo_checker_free_raw(&mut self.raw);
        }
    }
}
