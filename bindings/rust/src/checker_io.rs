//! A checker as a writer, and the check of what a reader returns.

use crate::checker::{Checked, Checker};
use crate::options::Options;
use crate::reader::ReadError;
use crate::reason::Reason;
use crate::refused::Refused;
use std::io::{self, ErrorKind, Read, Write};

/// Checks exactly one item, so that [`io::copy`] and [`write_all`](Write::write_all) fail where it is
/// refused. After the last byte, [`end`](Checker::end) says whether the item is complete.
///
/// A byte after the item is refused as [`Reason::Trailing`]: `write` returns how many bytes belong to the
/// item, and the next call, with the bytes after them, fails. After that, each call returns this refusal
/// until [`restart`](Checker::restart), and `end` too. So it is not lost if another writer ignores the
/// error, as [`BufWriter`](io::BufWriter) does when it is dropped.
///
/// ```
/// use naltvigo::{Checker, Options, Reason, Refused};
/// use std::io;
///
/// let mut checker = Checker::new(&Options::default())?;
/// // [1, "a"]
/// assert_eq!(io::copy(&mut &b"\x82\x01\x61a"[..], &mut checker)?, 4);
/// assert_eq!(checker.end()?, 4);
///
/// checker.restart();
/// let error = io::copy(&mut &b"\x82\x01\x61a\x00"[..], &mut checker).unwrap_err();
/// let refused = error.get_ref().unwrap().downcast_ref::<Refused>().unwrap();
/// assert_eq!((refused.reason, refused.offset), (Reason::Trailing, 4));
/// # Ok::<(), io::Error>(())
/// ```
impl Write for Checker {
    fn write(&mut self, part: &[u8]) -> io::Result<usize> {
        match self.feed(part)? {
            Checked::More => Ok(part.len()),
            Checked::Complete(0) if !part.is_empty() => Err(self.refuse_trailing().into()),
            Checked::Complete(used) => Ok(used),
        }
    }

    fn flush(&mut self) -> io::Result<()> {
        Ok(())
    }
}

/// An error that contains the refusal. Its kind is `UnexpectedEof` for [`Reason::Truncated`],
/// `OutOfMemory` for [`Reason::Memory`], and otherwise `InvalidData`.
impl From<Refused> for io::Error {
    fn from(refused: Refused) -> io::Error {
        let kind = match refused.reason {
            Reason::Truncated => ErrorKind::UnexpectedEof,
            Reason::Memory => ErrorKind::OutOfMemory,
            _ => ErrorKind::InvalidData,
        };
        io::Error::new(kind, refused)
    }
}

// How many bytes a read returns at most.
const AT_A_TIME: usize = 1 << 13;

/// Checks that all bytes of a reader are one item in its canonical bytes, and returns their number. For a
/// slice with these bytes, [`check_canonical`](crate::check_canonical) returns the same refusal.
///
/// It reads to the end, or until a byte is refused, and stores no more than a [`Checker`] does. A read that
/// is interrupted is tried again; another error of the reader is [`ReadError::Read`].
///
/// ```
/// use naltvigo::{check_reader, Options, ReadError, Reason};
///
/// let file = &b"\x82\x01\x61a"[..]; // or a std::fs::File
/// assert_eq!(check_reader(file, &Options::default())?, 4);
///
/// match check_reader(&b"\x82\x18\x01\x00"[..], &Options::default()) {
///     Err(ReadError::Refused(why)) => assert_eq!((why.reason, why.offset), (Reason::NotShortest, 1)),
///     other => panic!("{other:?}"),
/// }
/// # Ok::<(), ReadError<std::io::Error>>(())
/// ```
pub fn check_reader(mut reader: impl Read, options: &Options) -> Result<u64, ReadError<io::Error>> {
    let mut checker = Checker::new(options)?;
    let mut buffer = [0; AT_A_TIME];
    loop {
        let count = match reader.read(&mut buffer) {
            Ok(0) => return Ok(checker.end()?),
            Ok(count) => count,
            Err(error) if error.kind() == ErrorKind::Interrupted => continue,
            Err(error) => return Err(ReadError::Read(error)),
        };
        match checker.feed(&buffer[..count])? {
            Checked::Complete(used) if used < count => {
                return Err(checker.refuse_trailing().into())
            }
            _ => {}
        }
    }
}
