//! The events of an item.

use crate::machine::{Machine, Taken, MANY};
use crate::options::Options;
use crate::raw::{self, EVENT, MORE, OK};
use crate::reason::Reason;
use crate::refused::Refused;
use core::iter::FusedIterator;
use core::mem;

/// An event of an item.
#[derive(Clone, Copy, Debug, PartialEq, Eq)]
#[non_exhaustive]
pub struct Event<'a> {
    /// The offset of its first byte, from the item's first byte.
    pub offset: u64,
    /// How many bytes its argument has: 0, 1, 2, 4 or 8; none for an indefinite length and a break.
    pub width: Option<u8>,
    /// What it is.
    pub kind: Kind<'a>,
}

/// What an event is. A length or count is none if the item has indefinite length.
#[derive(Clone, Copy, Debug, PartialEq, Eq)]
#[allow(missing_docs)]
pub enum Kind<'a> {
    Unsigned(u64),
    /// The number -1 - n.
    Negative(u64),
    Bytes(Option<u64>),
    Text(Option<u64>),
    Array(Option<u64>),
    Map(Option<u64>),
    Tag(u64),
    Simple(u8),
    /// The head of a chunk of a string of indefinite length.
    Chunk(u64),
    /// Some bytes of a payload.
    Piece(&'a [u8]),
    /// The end of an item of indefinite length.
    Break,
}

// The events of a part, which begins at this offset of the item. One call of the library returns a
// batch of them.
#[derive(Clone, Debug)]
struct Batch<'a> {
    part: &'a [u8],
    begins: u64,
    // How many bytes of the part the machine had used before the batch.
    used: usize,
    events: [raw::Event; MANY],
    // How many events of the batch were given.
    given: usize,
    last: Taken,
}

impl<'a> Batch<'a> {
    fn new(part: &'a [u8], begins: u64) -> Batch<'a> {
        Batch {
            part,
            begins,
            used: 0,
            events: [raw::Event::default(); MANY],
            given: 0,
            last: Taken {
                status: EVENT,
                used: 0,
                reported: 0,
                refusal: raw::Refusal::default(),
            },
        }
    }

    fn is_given(&self) -> bool {
        self.given == self.last.reported
    }

    // Whether the next batch must come from the machine.
    fn is_next(&self) -> bool {
        self.is_given() && self.last.status == EVENT
    }

    fn fill(&mut self, machine: &mut Machine) {
        self.used += self.last.used;
        self.last = machine.take(&self.part[self.used..], &mut self.events);
        self.given = 0;
    }

    // The next event of the batch; none if the status of the last call says why.
    fn next(&mut self) -> Option<Event<'a>> {
        let event = self.events[..self.last.reported].get(self.given)?;
        self.given += 1;
        Some(event_of(event, self.part, self.begins))
    }
}

// The event as Rust has it, of a part that begins there in the item.
pub(crate) fn event_of<'a>(event: &raw::Event, part: &'a [u8], begins: u64) -> Event<'a> {
    let width = u8::try_from(event.width).ok().filter(|&width| width < 255);
    let number = event.number;
    let length = width.map(|_| number);
    let kind = match event.kind {
        0 => Kind::Unsigned(number),
        1 => Kind::Negative(number),
        2 => Kind::Bytes(length),
        3 => Kind::Text(length),
        4 => Kind::Array(length),
        5 => Kind::Map(length),
        6 => Kind::Tag(number),
        7 => Kind::Simple(number as u8),
        8 => Kind::Chunk(number),
        9 => Kind::Piece(&part[(event.offset - begins) as usize..][..number as usize]),
        _ => Kind::Break,
    };
    Event {
        offset: event.offset,
        width,
        kind,
    }
}

/// The events of a slice, which must be one item.
///
/// The iterator ends after a refusal: the item is not well-formed, a byte follows it, or the slice ends
/// within it.
///
/// ```
/// use naltvigo::{Events, Kind, Options};
///
/// let kinds: Result<Vec<Kind>, _> =
///     Events::new(b"\x82\x01\x42ab", &Options::default()).map(|event| Ok(event?.kind)).collect();
/// let wanted = [Kind::Array(Some(2)), Kind::Unsigned(1), Kind::Bytes(Some(2)), Kind::Piece(b"ab")];
/// assert_eq!(kinds?, wanted);
/// # Ok::<(), naltvigo::Refused>(())
/// ```
#[derive(Clone, Debug)]
pub struct Events<'a> {
    machine: Machine,
    batch: Batch<'a>,
    options: Options,
    ended: bool,
}

impl<'a> Events<'a> {
    /// The events of this slice, within the limits of these options.
    pub fn new(input: &'a [u8], options: &Options) -> Events<'a> {
        Events {
            machine: Machine::new(options),
            batch: Batch::new(input, 0),
            options: *options,
            ended: false,
        }
    }

    // What follows the last event, once.
    fn end(&mut self) -> Option<Refused> {
        if mem::replace(&mut self.ended, true) {
            return None;
        }
        let (consumed, input) = (self.machine.consumed(), self.batch.part);
        match self.batch.last.status {
            // all was offered, so the item is cut off
            MORE => Some(Refused::at(
                Reason::Truncated,
                consumed,
                input,
                &self.options,
            )),
            OK if consumed == input.len() as u64 => None,
            OK => Some(Refused::at(
                Reason::Trailing,
                consumed,
                input,
                &self.options,
            )),
            _ => Some(Refused::of(self.batch.last.refusal, input, &self.options)),
        }
    }
}

impl<'a> Iterator for Events<'a> {
    type Item = Result<Event<'a>, Refused>;

    fn next(&mut self) -> Option<Self::Item> {
        if self.batch.is_next() {
            self.batch.fill(&mut self.machine);
        }
        match self.batch.next() {
            Some(event) => Some(Ok(event)),
            None => self.end().map(Err),
        }
    }
}

impl FusedIterator for Events<'_> {}

/// The events of a part of an item, from [`Machine::events`]. The iterator ends after a refusal of the
/// item.
#[derive(Debug)]
#[must_use = "no byte is consumed before an event is requested"]
pub struct PartEvents<'m, 'a> {
    machine: &'m mut Machine,
    // The machine as it was before the batch.
    before: Machine,
    batch: Batch<'a>,
    ended: bool,
}

impl<'m, 'a> PartEvents<'m, 'a> {
    pub(crate) fn new(machine: &'m mut Machine, part: &'a [u8]) -> PartEvents<'m, 'a> {
        PartEvents {
            batch: Batch::new(part, machine.consumed()),
            before: machine.clone(),
            machine,
            ended: false,
        }
    }
}

impl<'a> Iterator for PartEvents<'_, 'a> {
    type Item = Result<Event<'a>, Refused>;

    fn next(&mut self) -> Option<Self::Item> {
        if self.batch.is_next() {
            self.before.clone_from(self.machine);
            self.batch.fill(self.machine);
        }
        if let Some(event) = self.batch.next() {
            return Some(Ok(event));
        }
        if mem::replace(&mut self.ended, true) {
            return None;
        }
        match self.batch.last.status {
            MORE | OK => None,
            _ => Some(Err(Refused::of_parts(self.batch.last.refusal))),
        }
    }
}

// Takes back the bytes of events that were not returned: the machine has then not consumed them.
impl Drop for PartEvents<'_, '_> {
    fn drop(&mut self) {
        let Batch {
            part, used, given, ..
        } = self.batch;
        if !self.batch.is_given() {
            self.machine.clone_from(&self.before);
            self.machine
                .take(&part[used..], &mut self.batch.events[..given]);
        }
    }
}

impl FusedIterator for PartEvents<'_, '_> {}
