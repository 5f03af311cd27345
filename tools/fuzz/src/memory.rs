//! Memory for the Rust that says what is expected. AddressSanitizer's malloc would
//! take half of all the time there, and this Rust is not what is tested: it gets
//! the C library's own malloc, by the names that AddressSanitizer leaves alone.

use std::alloc::{GlobalAlloc, Layout};

extern "C" {
    fn __libc_malloc(size: usize) -> *mut u8;
    fn __libc_free(from: *mut u8);
}

/// What malloc aligns to on x86-64.
const ALIGNED: usize = 16;

pub struct Plain;

// Safety: what malloc gives is aligned and large enough, or is made so.
unsafe impl GlobalAlloc for Plain {
    unsafe fn alloc(&self, layout: Layout) -> *mut u8 {
        if layout.align() <= ALIGNED {
            return __libc_malloc(layout.size());
        }
        let whole = __libc_malloc(layout.size() + layout.align());
        if whole.is_null() {
            return whole;
        }
        // At least 16 bytes further on; the word before says where the whole begins.
        let to = whole.add(layout.align() - whole as usize % layout.align());
        to.cast::<*mut u8>().sub(1).write(whole);
        to
    }

    unsafe fn dealloc(&self, from: *mut u8, layout: Layout) {
        let aligned = layout.align() <= ALIGNED;
        __libc_free(if aligned { from } else { from.cast::<*mut u8>().sub(1).read() })
    }
}
