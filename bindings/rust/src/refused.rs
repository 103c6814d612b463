//! The refusal of an input.

use crate::calls::explain;
use crate::get_error::GetError;
use crate::map::RepeatedKey;
use crate::options::{Options, WIDEST};
use crate::raw;
use crate::reader::ReadError;
use crate::reason::Reason;
use alloc::boxed::Box;
use core::error::Error;
use core::fmt;

/// Why an input is refused, and where. `Display` and `Debug` write one line, which is also what a program
/// prints if its `main` returns the error: `refused 12 Trailing at 1: The item is complete, and a byte
/// follows it.`
///
/// ```
/// use naltvigo::{check, Options, Reason};
///
/// let refused = check(b"\xa1\x61a\x82\x00\xf9\x3e\x00", &Options::default()).unwrap_err();
/// assert_eq!((refused.reason, refused.offset), (Reason::Float, 5));
/// assert_eq!(refused.path(), r#"$."a"[1]"#);
/// assert!(!refused.sentence().is_empty() && !refused.advice().is_empty());
/// ```
#[derive(Clone, PartialEq, Eq, Hash)]
#[non_exhaustive]
pub struct Refused {
    /// Why. [`Reason::Memory`] means that memory ran out, and that nothing is known about the input.
    pub reason: Reason,
    /// The offset of the fault, in bytes.
    pub offset: u64,
    /// How many bytes were consumed: those that the decision depends on.
    pub consumed: u64,
    // A sentence, an advice and a path, a line each. Empty if memory was refused.
    explanation: Box<str>,
}

impl Refused {
    pub(crate) fn of(refusal: raw::Refusal, input: &[u8], options: &Options) -> Refused {
        let reason = Reason::numbered(refusal.reason).unwrap_or(Reason::Memory);
        Refused {
            reason,
            offset: refusal.offset,
            consumed: refusal.consumed,
            explanation: explain(input, options, reason, refusal.offset),
        }
    }

    // Of an item whose bytes are gone, so without a path.
    pub(crate) fn of_parts(refusal: raw::Refusal) -> Refused {
        Refused::of(refusal, &[], &WIDEST)
    }

    pub(crate) fn at(reason: Reason, offset: u64, input: &[u8], options: &Options) -> Refused {
        let refusal = raw::Refusal {
            reason: reason.number().into(),
            offset,
            consumed: offset,
        };
        Refused::of(refusal, input, options)
    }

    fn line(&self, number: usize) -> &str {
        self.explanation.splitn(3, '\n').nth(number).unwrap_or("")
    }

    /// What is wrong, in a sentence.
    pub fn sentence(&self) -> &str {
        self.line(0)
    }

    /// What to do about it, in a sentence.
    pub fn advice(&self) -> &str {
        self.line(1)
    }

    /// The path to the fault: `$."a"[1]` is the second member of the array at the key `"a"`, and `$` is the
    /// item itself. A [`Machine`](crate::Machine) and a [`Checker`](crate::Checker) do not store the bytes,
    /// so with them it is always `$`.
    pub fn path(&self) -> &str {
        self.line(2)
    }
}

impl fmt::Display for Refused {
    fn fmt(&self, f: &mut fmt::Formatter<'_>) -> fmt::Result {
        let (number, reason) = (self.reason.number(), self.reason);
        write!(f, "refused {number} {reason:?} at {}", self.offset)?;
        if !matches!(self.path(), "$" | "") {
            write!(f, " ({})", self.path())?;
        }
        match self.sentence() {
            "" => Ok(()),
            sentence => write!(f, ": {sentence}"),
        }
    }
}

impl Error for Refused {}

/// Which of two inputs is refused.
#[derive(Clone, Copy, Debug, PartialEq, Eq, Hash)]
pub enum Side {
    /// The first one.
    Left,
    /// The second one; the first is accepted.
    Right,
}

/// Why two inputs were not compared: one of them is refused.
#[derive(Clone, PartialEq, Eq, Hash)]
#[non_exhaustive]
pub struct NotCompared {
    /// Which of the two.
    pub side: Side,
    /// Why.
    pub refused: Refused,
}

impl fmt::Display for NotCompared {
    fn fmt(&self, f: &mut fmt::Formatter<'_>) -> fmt::Result {
        let side = match self.side {
            Side::Left => "left",
            Side::Right => "right",
        };
        write!(f, "{side}: {}", self.refused)
    }
}

impl Error for NotCompared {}

/// Why nothing was written to a buffer.
#[derive(Clone, PartialEq, Eq, Hash)]
#[non_exhaustive]
pub enum NotWritten {
    /// The input is refused.
    Refused(Refused),
    /// The result has this many bytes, more than the buffer.
    TooSmall(usize),
}

impl From<Refused> for NotWritten {
    fn from(refused: Refused) -> NotWritten {
        NotWritten::Refused(refused)
    }
}

impl fmt::Display for NotWritten {
    fn fmt(&self, f: &mut fmt::Formatter<'_>) -> fmt::Result {
        match self {
            NotWritten::Refused(refused) => refused.fmt(f),
            NotWritten::TooSmall(needed) => write!(f, "the result has {needed} bytes"),
        }
    }
}

impl Error for NotWritten {}

// What `main` returns as an error is shown by Debug, so that of each error is its sentence.
macro_rules! debug_as_display {
    ($($type:ident$(<$parameter:ident>)?)*) => {$(
        impl$(<$parameter: fmt::Display>)? fmt::Debug for $type$(<$parameter>)? {
            fn fmt(&self, f: &mut fmt::Formatter<'_>) -> fmt::Result {
                fmt::Display::fmt(self, f)
            }
        }
    )*};
}

debug_as_display!(Refused NotCompared NotWritten GetError RepeatedKey ReadError<E>);
