//! What a Rust archive without std needs from its C program: memory, and an end if it panics.
use core::alloc::{GlobalAlloc, Layout};

extern "C" {
    fn malloc(size: usize) -> *mut u8;
    fn free(p: *mut u8);
    fn abort() -> !;
}

struct Heap;

// malloc's alignment, 16, is enough for all that is asked for here
unsafe impl GlobalAlloc for Heap {
    unsafe fn alloc(&self, layout: Layout) -> *mut u8 {
        malloc(layout.size())
    }
    unsafe fn dealloc(&self, p: *mut u8, _: Layout) {
        free(p)
    }
}

#[global_allocator]
static HEAP: Heap = Heap;

#[panic_handler]
fn panic(_: &core::panic::PanicInfo) -> ! {
    unsafe { abort() }
}

#[cfg(alloc_handler)]
#[alloc_error_handler]
fn out_of_memory(_: Layout) -> ! {
    unsafe { abort() }
}
