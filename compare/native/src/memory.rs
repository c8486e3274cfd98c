//! A count outside the domain makes nix-wire ask for more memory than there is, which ends a process. Here it is a panic, and the process goes on.
use oracle::answer::NO_MEMORY;
use std::alloc::{set_alloc_error_hook, GlobalAlloc, Layout, System};
use std::ptr;

/// Above what any request inside the domain needs in one piece (a string of 256 MiB).
const MOST: usize = 1 << 30;

struct Limited;

// SAFETY: the system's allocator, or none.
unsafe impl GlobalAlloc for Limited {
    unsafe fn alloc(&self, layout: Layout) -> *mut u8 {
        if layout.size() > MOST {
            return ptr::null_mut();
        }
        System.alloc(layout)
    }

    unsafe fn alloc_zeroed(&self, layout: Layout) -> *mut u8 {
        if layout.size() > MOST {
            return ptr::null_mut();
        }
        System.alloc_zeroed(layout)
    }

    unsafe fn realloc(&self, p: *mut u8, layout: Layout, size: usize) -> *mut u8 {
        if size > MOST {
            return ptr::null_mut();
        }
        System.realloc(p, layout, size)
    }

    unsafe fn dealloc(&self, p: *mut u8, layout: Layout) {
        System.dealloc(p, layout)
    }
}

#[global_allocator]
static MEMORY: Limited = Limited;

pub fn panic_without() {
    set_alloc_error_hook(|_| panic!("{NO_MEMORY}"));
}
