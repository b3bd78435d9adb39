//! What else std has: memory, here by the three functions that c/heap.c defines, as the archive takes it; and the end of a program whose
//! library panics, which none of these calls does unless there is a fault.

use core::alloc::{GlobalAlloc, Layout};
use core::panic::PanicInfo;
use core::ptr::null_mut;

/// A block, or, where memory ran out, the address of a byte that is never read.
#[repr(C)]
struct Block {
    made: bool,
    at: *mut u8,
}

extern "C" {
    fn rattle_alloc(size: usize, align: usize) -> Block;
    fn rattle_realloc(old: *mut u8, kept: usize, size: usize, align: usize) -> Block;
    fn rattle_dealloc(block: *mut u8);
    fn abort() -> !;
}

#[panic_handler]
fn panic(_: &PanicInfo) -> ! {
    // SAFETY: C's `abort` may be called at any time.
    unsafe { abort() }
}

impl Block {
    fn address(self) -> *mut u8 {
        if self.made {
            self.at
        } else {
            null_mut()
        }
    }
}

/// The functions align a block to each power of two up to 16 that divides its size. So a size is rounded up to its alignment, and a
/// greater alignment, which no map asks for, is refused.
fn size(layout: Layout) -> Option<usize> {
    Some(layout.pad_to_align().size()).filter(|_| layout.align() <= 16)
}

struct Heap;

#[global_allocator]
static HEAP: Heap = Heap;

// SAFETY: a block has the size and the alignment that were asked for, or the address is null. The rest is what heap.c promises.
unsafe impl GlobalAlloc for Heap {
    unsafe fn alloc(&self, layout: Layout) -> *mut u8 {
        match size(layout) {
            // SAFETY: any size and alignment may be passed.
            Some(size) => unsafe { rattle_alloc(size, layout.align()) }.address(),
            None => null_mut(),
        }
    }

    unsafe fn realloc(&self, old: *mut u8, layout: Layout, new_size: usize) -> *mut u8 {
        match Layout::from_size_align(new_size, layout.align()).ok().and_then(size) {
            // SAFETY: `old` is a block of `layout`, which was made by these functions.
            Some(size) => unsafe { rattle_realloc(old, layout.size(), size, layout.align()) }.address(),
            None => null_mut(),
        }
    }

    unsafe fn dealloc(&self, block: *mut u8, _: Layout) {
        // SAFETY: the block was made by these functions.
        unsafe { rattle_dealloc(block) }
    }
}
