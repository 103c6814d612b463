//! The calls on heads, and on items of bytes that are known to be canonical.

use crate::options::{Options, Order, WIDEST};
use crate::parts::Part;
use crate::raw::{self, NOT_FOUND, OK, TOO_SMALL};
use alloc::vec;
use alloc::vec::Vec;

/// The most bytes that a head has.
pub(crate) const HEAD_MAX: usize = 9;

/// Writes the shortest head of this kind and number to the front of `out`, and returns its length.
pub(crate) fn put(kind: u8, number: u64, out: &mut [u8]) -> usize {
    let mut needed = 0;
    // SAFETY: `out` is borrowed for the call, and its length is passed.
    let status = unsafe {
        raw::naltvigo_put_head_raw(
            kind.into(),
            number,
            out.as_mut_ptr(),
            out.len(),
            &mut needed,
        )
    };
    // A head left out would give canonical bytes of another value.
    assert_eq!(status, OK, "kind {kind} has no head of {number}");
    needed
}

/// Appends the shortest head of a part, and its payload.
pub(crate) fn append(part: Part<'_>, out: &mut Vec<u8>) {
    let mut head = [0; HEAD_MAX];
    let size = put(part.kind, part.number, &mut head);
    out.extend_from_slice(&head[..size]);
    out.extend_from_slice(part.payload);
}

/// The item that begins at this offset.
pub(crate) fn item_at(input: &[u8], offset: u64) -> Option<raw::Item> {
    let mut item = raw::Item::default();
    // SAFETY: the call reads within the slice at any bytes and offset.
    let status =
        unsafe { raw::naltvigo_item_at_raw(input.as_ptr(), input.len(), offset, &mut item) };
    (status == OK).then_some(item)
}

/// Why a look-up finds nothing.
pub(crate) enum NotFound {
    NoKey,
    NotMap,
}

/// The value at the key of these canonical bytes, in the map that the input is.
pub(crate) fn find(map: &[u8], key: &[u8]) -> Result<raw::Item, NotFound> {
    let mut value = raw::Item::default();
    // SAFETY: the call reads only within the two slices, for any bytes.
    let status = unsafe {
        raw::naltvigo_find_raw(
            map.as_ptr(),
            map.len(),
            0,
            key.as_ptr(),
            key.len(),
            &mut value,
        )
    };
    match status {
        OK => Ok(value),
        NOT_FOUND => Err(NotFound::NoKey),
        _ => Err(NotFound::NotMap),
    }
}

// A table of up to this many items is on the stack.
const FEW: usize = 64;

/// Calls `read` with the table of all items in an item, in the order of their first bytes. The item is
/// in its canonical bytes in this order of keys.
pub(crate) fn with_index<R>(item: &[u8], order: Order, read: impl FnOnce(&[raw::Item]) -> R) -> R {
    let options = WIDEST.with_order(order);
    let mut few = [raw::Item::default(); FEW];
    let (status, count) = index(item, &options, &mut few);
    if status != TOO_SMALL {
        assert_eq!(status, OK, "the bytes are canonical");
        return read(&few[..count]);
    }
    let mut many = vec![raw::Item::default(); count];
    let (status, _) = index(item, &options, &mut many);
    assert_eq!(status, OK, "the bytes are canonical");
    read(&many)
}

// The status, and the number of items.
fn index(item: &[u8], options: &Options, items: &mut [raw::Item]) -> (u32, usize) {
    let (mut needed, mut refusal) = (0, raw::Refusal::default());
    // SAFETY: the items are borrowed for the call, and their number is passed.
    let status = unsafe {
        raw::naltvigo_index_raw(
            item.as_ptr(),
            item.len(),
            options.order() as u32,
            options.keys() as u32,
            options.depth().into(),
            options.bytes(),
            items.as_mut_ptr(),
            items.len(),
            &mut needed,
            &mut refusal,
        )
    };
    (status, needed)
}
