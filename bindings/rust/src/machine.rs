//! The machine that reads an item in parts.

use crate::events::{event_of, Event, PartEvents};
use crate::options::Options;
use crate::raw::{self, EVENT, MORE, OK};
use crate::refused::Refused;

/// What a step of a machine returns.
#[derive(Clone, Debug, PartialEq, Eq)]
pub enum Step<'a> {
    /// An event is complete.
    Event(Event<'a>),
    /// All of the part was used, and the item needs more bytes.
    More,
    /// The item is complete, and all its events were returned.
    Done,
    /// The item is refused.
    Refused(Refused),
}

/// A machine that reads one item in parts of any length, and returns its events. It allocates no memory.
///
/// It checks only that the item is well-formed. A [`Checker`](crate::Checker) also checks UTF-8, repeated
/// keys and canonical encoding. A machine does not know which part is the last. After the last part, a step
/// with no bytes returns whether the item is complete.
///
/// ```
/// use naltvigo::{Kind, Machine, Options, Step};
///
/// let (mut machine, mut numbers) = (Machine::new(&Options::default()), Vec::new());
/// for part in [b"\x82\x18", b"\x64\x01"] {
///     for event in machine.events(part) {
///         if let Kind::Unsigned(number) = event?.kind {
///             numbers.push(number);
///         }
///     }
/// }
/// assert_eq!(numbers, [100, 1]);
/// assert_eq!(machine.step(b""), (0, Step::Done));
/// # Ok::<(), naltvigo::Refused>(())
/// ```
#[derive(Clone, Debug)]
pub struct Machine(raw::Machine);

impl Machine {
    /// A machine before an item's first byte, within the limits of these options.
    pub fn new(options: &Options) -> Machine {
        Machine(raw::Machine::new(options))
    }

    /// How many bytes were consumed.
    pub fn consumed(&self) -> u64 {
        self.0.consumed
    }

    /// How many arrays, maps and tags are open: each from its head until its last member or its break.
    pub fn open(&self) -> u16 {
        self.0.open
    }

    /// The events of a part. They end with the part, with the item, or with a refusal. Bytes after the
    /// item are not consumed.
    ///
    /// If you drop the iterator before its end, the machine has consumed the bytes up to the last event that
    /// you got. [`consumed`](Machine::consumed) is their number. Continue with the bytes after them.
    pub fn events<'m, 'a>(&'m mut self, part: &'a [u8]) -> PartEvents<'m, 'a> {
        PartEvents::new(self, part)
    }

    /// Consumes bytes from the start of a part until an event is complete or no byte is left. Returns the
    /// number of these bytes, and the result. After the item is complete or refused, it consumes nothing and
    /// returns the same result.
    ///
    /// A call writes 9 KiB of its stack. So for many events, [`events`](Machine::events) is faster.
    pub fn step<'a>(&mut self, part: &'a [u8]) -> (usize, Step<'a>) {
        let begins = self.consumed();
        let mut space = [raw::Event::default()];
        let taken = self.take(part, &mut space);
        let step = match taken.status {
            EVENT => Step::Event(event_of(&space[0], part, begins)),
            MORE => Step::More,
            OK => Step::Done,
            _ => Step::Refused(Refused::of_parts(taken.refusal)),
        };
        (taken.used, step)
    }

    /// Consumes a part, and whether the item needs more bytes.
    pub(crate) fn needs_more(&mut self, part: &[u8]) -> bool {
        let (mut used, mut space) = (0, [raw::Event::default(); MANY]);
        loop {
            let taken = self.take(&part[used..], &mut space);
            used += taken.used;
            if taken.status != EVENT {
                return taken.status == MORE;
            }
        }
    }

    // Consumes bytes from the front of a part until `space` is full or no byte is left.
    pub(crate) fn take(&mut self, part: &[u8], space: &mut [raw::Event]) -> Taken {
        let (mut used, mut reported) = (0, 0);
        let mut refusal = raw::Refusal::default();
        // SAFETY: as of the calls; the machine is one, since none but the library writes it.
        let status = unsafe {
            raw::naltvigo_machine_feed_raw(
                &mut self.0,
                part.as_ptr(),
                part.len(),
                &mut used,
                space.as_mut_ptr(),
                space.len(),
                &mut reported,
                &mut refusal,
            )
        };
        Taken {
            status,
            used,
            reported,
            refusal,
        }
    }
}

// The result of a part: how many of its bytes were used, and how many events were returned.
#[derive(Clone, Debug)]
pub(crate) struct Taken {
    pub status: u32,
    pub used: usize,
    pub reported: usize,
    pub refusal: raw::Refusal,
}

// How many events a call of the library returns at most.
pub(crate) const MANY: usize = 64;
