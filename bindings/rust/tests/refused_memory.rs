//! Refuses each request for memory of a checker, one at a time, and counts the blocks that it frees. The
//! `malloc` here replaces that of C, which the library calls.
#![cfg(all(target_os = "linux", target_env = "gnu"))]

use naltvigo::{read_canonical_items, Checked, Checker, Options, ReadError, Reason, Refused};
use std::cell::Cell;
use std::ffi::c_void;
use std::ptr::null_mut;

thread_local! {
    // Which of the next requests of this thread is refused: 1 is the first, 0 none.
    static REFUSED: Cell<usize> = const { Cell::new(0) };
    // How many blocks more than it freed the thread got.
    static BLOCKS: Cell<isize> = const { Cell::new(0) };
}

extern "C" {
    fn __libc_malloc(size: usize) -> *mut c_void;
    fn __libc_calloc(count: usize, size: usize) -> *mut c_void;
    fn __libc_realloc(at: *mut c_void, size: usize) -> *mut c_void;
    fn __libc_free(at: *mut c_void);
}

fn is_refused() -> bool {
    let number = REFUSED.get();
    REFUSED.set(number.saturating_sub(1));
    number == 1
}

#[no_mangle]
unsafe extern "C" fn malloc(size: usize) -> *mut c_void {
    if is_refused() {
        return null_mut();
    }
    BLOCKS.set(BLOCKS.get() + 1);
    __libc_malloc(size)
}

#[no_mangle]
unsafe extern "C" fn calloc(count: usize, size: usize) -> *mut c_void {
    if is_refused() {
        return null_mut();
    }
    BLOCKS.set(BLOCKS.get() + 1);
    __libc_calloc(count, size)
}

#[no_mangle]
unsafe extern "C" fn realloc(at: *mut c_void, size: usize) -> *mut c_void {
    if at.is_null() {
        return malloc(size);
    }
    if is_refused() {
        return null_mut();
    }
    __libc_realloc(at, size)
}

#[no_mangle]
unsafe extern "C" fn free(at: *mut c_void) {
    if !at.is_null() {
        BLOCKS.set(BLOCKS.get() - 1);
    }
    __libc_free(at);
}

// Maps within maps, keys that are maps, and a key of 10,000 bytes.
fn item() -> Vec<u8> {
    let text = [b"\x79\x27\x10", &[b'k'; 10_000][..]].concat();
    let deep = [&[0xa1, 0].repeat(40)[..], &[0]].concat();
    let keys = [&[0xa1; 40][..], &[0; 41]].concat();
    // {0: {0: {..}}, "kk..": 0, {{..}: 0}: 0}
    [&[0xa3, 0][..], &deep, &text, &[0], &keys, &[0]].concat()
}

fn check(item: &[u8]) -> Result<u64, Refused> {
    let mut checker = Checker::new(&Options::default())?;
    let found = fed(&mut checker, item);
    if let Err(why) = &found {
        // it stays, until a restart
        assert_eq!(checker.feed(b"\x00").as_ref(), Err(why));
        assert_eq!(checker.end().as_ref(), Err(why));
        checker.restart();
        assert_eq!(fed(&mut checker, item), Ok(item.len() as u64));
    }
    found
}

fn fed(checker: &mut Checker, item: &[u8]) -> Result<u64, Refused> {
    for part in item.chunks(97) {
        checker.feed(part)?;
    }
    checker.end()
}

#[test]
fn each_request_is_refused_once() {
    let item = item();
    for number in 1.. {
        REFUSED.set(number);
        let found = check(&item);
        let was_refused = REFUSED.replace(0) == 0;
        match found {
            Ok(length) => {
                assert_eq!(length, item.len() as u64);
                assert!(!was_refused && number > 3, "request {number}");
                return;
            }
            Err(why) => assert_eq!((why.reason, was_refused), (Reason::Memory, true)),
        }
    }
}

// The reads bring so few bytes that only the library requests memory for them.
#[test]
fn a_reader_without_memory() {
    // {h'0707..': 0}
    let item = [b"\xa1\x59\x03\xe8", &[7; 1000][..], &[0]].concat();
    let (mut left, mut reads) = (&item[..], 0);
    let read = |buffer: &mut [u8]| {
        let (part, rest) = left.split_at(left.len().min(10));
        buffer[..part.len()].copy_from_slice(part);
        left = rest;
        reads += 1;
        REFUSED.set(usize::from(reads > 2));
        Ok::<_, &str>(part.len())
    };
    let found = read_canonical_items(read, &Options::default()).next();
    REFUSED.set(0);
    match found {
        Some(Err(ReadError::Refused(why))) => assert_eq!(why.reason, Reason::Memory),
        other => panic!("{other:?}"),
    }
}

#[test]
fn all_blocks_are_freed() {
    let item = item();
    for length in [0, 1, 500, item.len() - 1, item.len()] {
        let before = BLOCKS.get();
        let mut checker = Checker::new(&Options::default()).unwrap();
        assert!(checker.feed(&item[..length]).is_ok());
        assert!(BLOCKS.get() > before);
        drop(checker);
        assert_eq!(BLOCKS.get(), before, "after {length} bytes");
    }
    // a refusal and a restart
    let before = BLOCKS.get();
    let mut checker = Checker::new(&Options::default()).unwrap();
    assert!(checker.feed(b"\xa1\x62").is_ok());
    assert!(checker.feed(b"ab\xff").is_err());
    checker.restart();
    assert_eq!(checker.feed(b"\x00"), Ok(Checked::Complete(1)));
    drop(checker);
    assert_eq!(BLOCKS.get(), before);
}
