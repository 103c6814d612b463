//! The items of a sequence.

use crate::calls::accepted;
use crate::options::Options;
use crate::raw;
use crate::refused::Refused;
use core::iter::FusedIterator;

/// The items of a sequence (RFC 8742), in any encoding. The limits are for each item. To accept only
/// canonical items, use [`canonical_items`].
///
/// ```
/// use naltvigo::{items, Options};
///
/// let found: Result<Vec<&[u8]>, _> = items(b"\x18\x00\x61a", &Options::default()).collect();
/// assert_eq!(found?, [b"\x18\x00", b"\x61a"]);
/// # Ok::<(), naltvigo::Refused>(())
/// ```
pub fn items<'a>(input: &'a [u8], options: &Options) -> Items<'a> {
    Items {
        left: input,
        offset: 0,
        canonical: false,
        options: *options,
    }
}

/// The items of a sequence, each in its canonical bytes. An item in another encoding is refused, as by
/// [`check_canonical`](crate::check_canonical). It allocates no memory.
///
/// ```
/// use naltvigo::{canonical_items, Options, Reason};
///
/// let mut found = canonical_items(b"\x61a\x18\x00", &Options::default());
/// assert_eq!(found.next(), Some(Ok(&b"\x61a"[..])));
/// let refused = found.next().unwrap().unwrap_err();
/// assert_eq!((refused.reason, found.offset()), (Reason::NotShortest, 2));
/// ```
pub fn canonical_items<'a>(input: &'a [u8], options: &Options) -> Items<'a> {
    Items {
        canonical: true,
        ..items(input, options)
    }
}

/// The items of a sequence: what [`items`] and [`canonical_items`] return. The iterator ends after a
/// refusal, whose offset counts from the first byte of its item.
#[derive(Clone, Debug)]
pub struct Items<'a> {
    left: &'a [u8],
    offset: usize,
    canonical: bool,
    options: Options,
}

impl Items<'_> {
    /// The offset in the input of the next item, or of the one that was refused; at the end, the
    /// input's length.
    pub fn offset(&self) -> usize {
        self.offset
    }

    // How many bytes the next item has.
    fn size(&self) -> Result<usize, Refused> {
        let (mut length, mut refusal) = (0, raw::Refusal::default());
        let status = if self.canonical {
            unsafe {
                raw::naltvigo_next_canonical_raw(
                    self.left.as_ptr(),
                    self.left.len(),
                    self.options.order() as u32,
                    self.options.keys() as u32,
                    self.options.depth().into(),
                    self.options.bytes(),
                    &mut length,
                    &mut refusal,
                )
            }
        } else {
            unsafe {
                raw::naltvigo_next_valid_raw(
                    self.left.as_ptr(),
                    self.left.len(),
                    self.options.keys() as u32,
                    self.options.depth().into(),
                    self.options.bytes(),
                    &mut length,
                    &mut refusal,
                )
            }
        };
        accepted(status, refusal, self.left, &self.options)?;
        Ok(length as usize)
    }
}

impl<'a> Iterator for Items<'a> {
    type Item = Result<&'a [u8], Refused>;

    fn next(&mut self) -> Option<Self::Item> {
        if self.left.is_empty() {
            return None;
        }
        Some(match self.size() {
            Ok(size) => {
                let (item, left) = self.left.split_at(size);
                self.left = left;
                self.offset += size;
                Ok(item)
            }
            Err(refused) => {
                self.left = &[];
                Err(refused)
            }
        })
    }
}

impl FusedIterator for Items<'_> {}
