//! The crate without `std`, for main.c beside it: a panic handler of its own, which no program can have that has `std`'s too, and memory
//! that is handed out once from one block.
#![no_std]

use core::alloc::{GlobalAlloc, Layout};
use core::cell::UnsafeCell;
use core::ptr::null_mut;
use core::sync::atomic::{AtomicUsize, Ordering};

const BYTES: usize = 1 << 20;

/// A block, and how much of it was handed out.
#[repr(align(64))]
struct Block(UnsafeCell<[u8; BYTES]>, AtomicUsize);

// SAFETY: each part of the block is handed out once
unsafe impl Sync for Block {}

// SAFETY: parts do not overlap, and lie within the block
unsafe impl GlobalAlloc for Block {
    unsafe fn alloc(&self, layout: Layout) -> *mut u8 {
        let size = layout.size().next_multiple_of(64);
        let start = self.1.fetch_add(size, Ordering::Relaxed);
        if layout.align() > 64 || start + size > BYTES {
            return null_mut();
        }
        self.0.get().cast::<u8>().wrapping_add(start)
    }

    unsafe fn dealloc(&self, _: *mut u8, _: Layout) {}
}

#[global_allocator]
static BLOCK: Block = Block(UnsafeCell::new([0; BYTES]), AtomicUsize::new(0));

#[panic_handler]
fn panic(_: &core::panic::PanicInfo) -> ! {
    loop {}
}

/// Whether the text is a document.
///
/// # Safety
///
/// The pointer and the length are a slice.
#[no_mangle]
pub unsafe extern "C" fn is_document(text: *const u8, bytes: usize) -> bool {
    deckmarten::text_fits(unsafe { core::slice::from_raw_parts(text, bytes) }).is_yes()
}
