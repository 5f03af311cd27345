//! The keyings lend one buffer, and nothing is allocated for a keying. One test alone, since it counts what the whole
//! process allocates.

use robinflint::{calls, sys, Entry, Kind};
use std::alloc::{GlobalAlloc, Layout, System};
use std::sync::atomic::{AtomicUsize, Ordering};

struct Counting;

static ALLOCATIONS: AtomicUsize = AtomicUsize::new(0);

// SAFETY: every call is handed on to the system's allocator as it is.
unsafe impl GlobalAlloc for Counting {
    unsafe fn alloc(&self, layout: Layout) -> *mut u8 {
        ALLOCATIONS.fetch_add(1, Ordering::Relaxed);
        // SAFETY: the caller owes what the system's allocator asks for.
        unsafe { System.alloc(layout) }
    }

    unsafe fn dealloc(&self, pointer: *mut u8, layout: Layout) {
        // SAFETY: the caller owes what the system's allocator asks for.
        unsafe { System.dealloc(pointer, layout) }
    }
}

#[global_allocator]
static ALLOCATOR: Counting = Counting;

fn main() {
    let text = ["chho\u{358}"; 4].join(" ");
    let before = ALLOCATIONS.load(Ordering::Relaxed);

    let mut keyings = Entry::new(&text).and_then(|entry| entry.keyings(Kind::Numeric)).unwrap();
    let (mut bytes, mut number, mut place) = (0, 0, None);
    while let Some(keying) = keyings.next() {
        let here = *place.get_or_insert(keying.as_ptr());
        assert_eq!(keying.as_ptr(), here, "every keying is in the same buffer");
        bytes += keying.len();
        number += 1;
    }
    assert_eq!((number, keyings.remaining(), keyings.refusal()), (256, 0, None));
    assert_eq!(keyings.next(), None);
    let mut buffer = [0; sys::STRIP_ROOM];
    let stripped = calls::strip(text.as_bytes(), &mut buffer).unwrap();
    assert_eq!(stripped.text(&buffer), text);

    assert_eq!(ALLOCATIONS.load(Ordering::Relaxed), before, "nothing was allocated");
    println!("{number} keyings of {bytes} bytes, and no allocation");

    let owned = Entry::new(&text).and_then(|entry| entry.keyings(Kind::Numeric)).unwrap().into_iter();
    assert_eq!(owned.size_hint(), (0, Some(256)));
    assert_eq!(owned.map(|keying| keying.len()).sum::<usize>(), bytes);
    assert!(ALLOCATIONS.load(Ordering::Relaxed) >= before + 256, "the counter counts");
}
