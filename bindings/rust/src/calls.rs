//! The calls on whole items.

use crate::options::Options;
use crate::raw::{self, DIFFERENT, OK, TOO_SMALL};
use crate::reason::Reason;
use crate::refused::{NotCompared, NotWritten, Refused, Side};
use alloc::boxed::Box;
use alloc::string::String;
use alloc::vec;
use alloc::vec::Vec;

// SAFETY, of each call below: a slice's pointer is not null and has as many bytes as its length;
// outputs are borrowed mutably for the call, so they overlap nothing.

/// The canonical bytes of `input`, which must be one valid item.
///
/// In the same order, two items have equal canonical bytes if and only if their values are the same.
/// If canonical bytes are canonicalised again, they do not change.
pub fn canonicalise(input: &[u8], options: &Options) -> Result<Vec<u8>, Refused> {
    written(input, options, 1, |out| {
        canonicalise_into(input, options, out)
    })
}

/// Writes the canonical bytes to the front of `out`, and returns their count. If it fails, `out` is
/// unchanged.
pub fn canonicalise_into(
    input: &[u8],
    options: &Options,
    out: &mut [u8],
) -> Result<usize, NotWritten> {
    let (mut needed, mut refusal) = (0, raw::Refusal::default());
    let status = unsafe {
        raw::naltvigo_canonicalise_raw(
            input.as_ptr(),
            input.len(),
            options.order() as u32,
            options.keys() as u32,
            options.depth().into(),
            options.bytes(),
            out.as_mut_ptr(),
            out.len(),
            &mut needed,
            &mut refusal,
        )
    };
    match status {
        OK => Ok(needed),
        TOO_SMALL => Err(NotWritten::TooSmall(needed)),
        _ => Err(NotWritten::Refused(Refused::of(refusal, input, options))),
    }
}

/// The diagnostic text (RFC 8949, section 8) of `input`, which must be one valid item.
///
/// ```
/// use naltvigo::{diagnostic, Options};
///
/// assert_eq!(diagnostic(b"\xa1\x61a\x41a", &Options::default())?, r#"{"a": h'61'}"#);
/// # Ok::<(), naltvigo::Refused>(())
/// ```
pub fn diagnostic(input: &[u8], options: &Options) -> Result<String, Refused> {
    let text = written(input, options, 4, |out| {
        let (mut needed, mut refusal) = (0, raw::Refusal::default());
        let status = unsafe {
            raw::naltvigo_diagnostic_raw(
                input.as_ptr(),
                input.len(),
                options.keys() as u32,
                options.depth().into(),
                options.bytes(),
                out.as_mut_ptr(),
                out.len(),
                &mut needed,
                &mut refusal,
            )
        };
        match status {
            OK => Ok(needed),
            TOO_SMALL => Err(NotWritten::TooSmall(needed)),
            _ => Err(NotWritten::Refused(Refused::of(refusal, input, options))),
        }
    })?;
    // It is UTF-8, since texts are.
    Ok(String::from_utf8(text).expect("diagnostic text is UTF-8"))
}

/// Checks that `input` is one valid item, in any encoding.
pub fn check(input: &[u8], options: &Options) -> Result<(), Refused> {
    let mut refusal = raw::Refusal::default();
    let status = unsafe {
        raw::naltvigo_check_valid_raw(
            input.as_ptr(),
            input.len(),
            options.keys() as u32,
            options.depth().into(),
            options.bytes(),
            &mut refusal,
        )
    };
    accepted(status, refusal, input, options)
}

/// Checks that `input` is one valid item in its canonical bytes. It allocates no memory.
///
/// ```
/// use naltvigo::{check_canonical, Options, Reason};
///
/// assert!(check_canonical(b"\x00", &Options::default()).is_ok());
/// let refused = check_canonical(b"\x18\x00", &Options::default()).unwrap_err();
/// assert_eq!(refused.reason, Reason::NotShortest);
/// ```
pub fn check_canonical(input: &[u8], options: &Options) -> Result<(), Refused> {
    let mut refusal = raw::Refusal::default();
    let status = unsafe {
        raw::naltvigo_check_canonical_raw(
            input.as_ptr(),
            input.len(),
            options.order() as u32,
            options.keys() as u32,
            options.depth().into(),
            options.bytes(),
            &mut refusal,
        )
    };
    accepted(status, refusal, input, options)
}

/// Whether two valid items have the same value. The pairs of maps may be in any order (RFC 8949,
/// section 5.6.1). The limits apply to each of the two. The left one is checked first.
///
/// ```
/// use naltvigo::{same, Options};
///
/// assert_eq!(same(b"\x18\x00", b"\x00", &Options::default()), Ok(true));
/// assert_eq!(same(b"\x61a", b"\x41a", &Options::default()), Ok(false));
/// ```
pub fn same(left: &[u8], right: &[u8], options: &Options) -> Result<bool, NotCompared> {
    let (mut side, mut refusal) = (0, raw::Refusal::default());
    let status = unsafe {
        raw::naltvigo_compare_raw(
            left.as_ptr(),
            left.len(),
            right.as_ptr(),
            right.len(),
            options.keys() as u32,
            options.depth().into(),
            options.bytes(),
            &mut side,
            &mut refusal,
        )
    };
    match status {
        OK => Ok(true),
        DIFFERENT => Ok(false),
        _ if side == raw::LEFT => Err(NotCompared {
            side: Side::Left,
            refused: Refused::of(refusal, left, options),
        }),
        _ => Err(NotCompared {
            side: Side::Right,
            refused: Refused::of(refusal, right, options),
        }),
    }
}

pub(crate) fn accepted(
    status: u32,
    refusal: raw::Refusal,
    input: &[u8],
    options: &Options,
) -> Result<(), Refused> {
    match status {
        OK => Ok(()),
        _ => Err(Refused::of(refusal, input, options)),
    }
}

/// The sentence, the advice and the path of a refusal of this input, a line each. Empty if memory runs
/// out.
pub(crate) fn explain(input: &[u8], options: &Options, reason: Reason, offset: u64) -> Box<str> {
    let mut text = vec![0; 512];
    loop {
        let mut needed = 0;
        let status = unsafe {
            raw::naltvigo_explain_raw(
                input.as_ptr(),
                input.len(),
                options.depth().into(),
                options.bytes(),
                reason.number().into(),
                offset,
                text.as_mut_ptr(),
                text.len(),
                &mut needed,
            )
        };
        if status != TOO_SMALL {
            text.truncate(needed);
            return String::from_utf8(text).unwrap_or_default().into();
        }
        text.resize(needed, 0);
    }
}

// The input's length, or the byte limit if that is less: more is refused, and no canonical bytes
// are longer than the limit.
fn within(input: &[u8], options: &Options) -> usize {
    usize::try_from(options.bytes()).map_or(input.len(), |limit| input.len().min(limit))
}

// What is written to a buffer with this many bytes for each of the input, or of the size that it needs.
fn written(
    input: &[u8],
    options: &Options,
    times: usize,
    mut write: impl FnMut(&mut [u8]) -> Result<usize, NotWritten>,
) -> Result<Vec<u8>, Refused> {
    let mut out = Vec::new();
    let mut space = within(input, options).saturating_mul(times);
    loop {
        if out.try_reserve_exact(space).is_err() {
            return Err(Refused::at(Reason::Memory, 0, &[], options));
        }
        out.resize(space, 0);
        match write(&mut out) {
            Ok(count) => {
                out.truncate(count);
                return Ok(out);
            }
            Err(NotWritten::TooSmall(needed)) => space = needed,
            Err(NotWritten::Refused(refused)) => return Err(refused),
        }
        out.clear();
    }
}
