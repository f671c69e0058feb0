//! The allocator of a program: the system's, but a program that gets no memory ends with the status 3
//! and a message, as after any other failure, and is not aborted.
use std::alloc::{GlobalAlloc, Layout, System};
use std::io::Write;

struct Allocator;

#[global_allocator]
static ALLOCATOR: Allocator = Allocator;

/// Returns the place that the system gave, or ends the program if it is none.
#[inline(always)]
fn given(place: *mut u8) -> *mut u8 {
    if place.is_null() {
        refuse();
    }
    place
}

#[cold]
fn refuse() -> ! {
    // (this allocates nothing)
    let message = concat!(env!("CARGO_BIN_NAME"), ": out of memory\n");
    let _ = std::io::stderr().write_all(message.as_bytes());
    std::process::exit(3)
}

// Each call is the system's, with the same arguments.
unsafe impl GlobalAlloc for Allocator {
    unsafe fn alloc(&self, layout: Layout) -> *mut u8 {
        given(System.alloc(layout))
    }

    unsafe fn alloc_zeroed(&self, layout: Layout) -> *mut u8 {
        given(System.alloc_zeroed(layout))
    }

    unsafe fn realloc(&self, place: *mut u8, layout: Layout, size: usize) -> *mut u8 {
        given(System.realloc(place, layout, size))
    }

    unsafe fn dealloc(&self, place: *mut u8, layout: Layout) {
        System.dealloc(place, layout);
    }
}
