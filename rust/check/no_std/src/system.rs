//! What std would bring: an allocator and a panic handler. The C library stands below both.
use core::alloc::{GlobalAlloc, Layout};
use core::ffi::{c_char, c_int, c_uint, c_void};
use core::panic::PanicInfo;
use core::sync::atomic::{AtomicBool, AtomicUsize, Ordering::Relaxed};

#[link(name = "c")]
extern "C" {
    fn malloc(size: usize) -> *mut c_void;
    fn free(block: *mut c_void);
    fn printf(format: *const c_char, ...) -> c_int;
    fn exit(status: c_int) -> !;
}

/// The allocator: it counts, and refuses if it is told to.
struct Counting;

static REFUSES: AtomicBool = AtomicBool::new(false);
static ASKED: AtomicUsize = AtomicUsize::new(0);
static HELD: AtomicUsize = AtomicUsize::new(0);

#[global_allocator]
static ALLOCATOR: Counting = Counting;

// No type of this program is aligned to more than `malloc` aligns to.
unsafe impl GlobalAlloc for Counting {
    unsafe fn alloc(&self, layout: Layout) -> *mut u8 {
        if REFUSES.load(Relaxed) {
            return core::ptr::null_mut();
        }
        ASKED.fetch_add(1, Relaxed);
        HELD.fetch_add(layout.size(), Relaxed);
        malloc(layout.size()).cast()
    }

    unsafe fn dealloc(&self, block: *mut u8, layout: Layout) {
        HELD.fetch_sub(layout.size(), Relaxed);
        free(block.cast());
    }
}

/// Whether each request is refused from now on.
pub fn refuse(refuses: bool) {
    REFUSES.store(refuses, Relaxed);
}

/// How many requests were granted.
pub fn asked() -> usize {
    ASKED.load(Relaxed)
}

/// How many bytes are held.
pub fn held() -> usize {
    HELD.load(Relaxed)
}

/// The library `alloc` names this, since it was compiled to unwind. Nothing unwinds here, so nothing calls it.
#[no_mangle]
extern "C" fn rust_eh_personality() {}

#[panic_handler]
fn panicked(panic: &PanicInfo) -> ! {
    let (file, line) = panic.location().map_or(("", 0), |place| (place.file(), place.line()));
    unsafe {
        printf(b"a panic at %.*s:%u\n\0".as_ptr().cast(), file.len() as c_int, file.as_ptr(), line as c_uint);
        exit(1)
    }
}
