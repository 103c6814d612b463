//! How much space calls make for their results.

use naltvigo::{canonicalise, diagnostic, Options, Reason, Refused};
use std::alloc::{GlobalAlloc, Layout, System};
use std::sync::atomic::{AtomicUsize, Ordering};

// How many bytes were requested at once, at most.
static MOST: AtomicUsize = AtomicUsize::new(0);

struct Watched;

// SAFETY: the system's allocator does the work.
unsafe impl GlobalAlloc for Watched {
    unsafe fn alloc(&self, layout: Layout) -> *mut u8 {
        MOST.fetch_max(layout.size(), Ordering::Relaxed);
        System.alloc(layout)
    }

    unsafe fn dealloc(&self, at: *mut u8, layout: Layout) {
        System.dealloc(at, layout)
    }
}

#[global_allocator]
static WATCHED: Watched = Watched;

fn triple(why: Refused) -> (Reason, u64, u64) {
    (why.reason, why.offset, why.consumed)
}

// Refused as ever, and without space for the input's length.
#[test]
fn of_an_input_far_longer_than_the_limit() {
    let options = Options::default().with_limits(64, 10).unwrap();
    let trailing = vec![0; 1 << 24];
    let mut endless = trailing.clone();
    endless[0] = 0x9f;
    for (input, wanted) in [
        (&endless, (Reason::TooLong, 10, 10)),
        (&trailing, (Reason::Trailing, 1, 1)),
    ] {
        MOST.store(0, Ordering::Relaxed);
        assert_eq!(canonicalise(input, &options).map_err(triple), Err(wanted));
        assert_eq!(diagnostic(input, &options).map_err(triple), Err(wanted));
        assert!(MOST.load(Ordering::Relaxed) < 1 << 20);
    }
    // at the limit nothing changes
    assert_eq!(
        canonicalise(b"\x42\x00\x00", &options.with_limits(0, 3).unwrap()),
        Ok(b"\x42\x00\x00".to_vec())
    );
    assert_eq!(
        canonicalise(b"\x18\x00", &options.with_limits(0, 2).unwrap()),
        Ok(vec![0])
    );
}
