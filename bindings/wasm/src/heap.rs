//! The memory of the module: that of `tz_file_read`, and what JavaScript takes for zones and columns.
//!
//! A block has a power of two of bytes. One that was given back goes to the next request for its
//! size, and memory grows if there is none.
#![allow(unsafe_code)]

use core::alloc::{GlobalAlloc, Layout};
use core::arch::wasm32::{memory_grow, unreachable};
use core::cell::Cell;
use core::ptr;

const PAGE: usize = 65536;
/// The size of the least blocks, and the alignment of all.
const LEAST: usize = 16;

struct Heap {
    /// The last block of each size that was given back, or null. It begins with the address of the
    /// one before.
    freed: [Cell<*mut u8>; 32],
    /// Where memory begins that was never given out, and how much of it there is.
    unused: Cell<usize>,
    room: Cell<usize>,
}

// SAFETY: the module has one thread.
unsafe impl Sync for Heap {}

#[global_allocator]
static HEAP: Heap = Heap {
    freed: [const { Cell::new(ptr::null_mut()) }; 32],
    unused: Cell::new(0),
    room: Cell::new(0),
};

/// The size of the block for so many bytes, at most 2^31.
fn block_size(size: usize) -> usize {
    size.max(LEAST).next_power_of_two()
}

impl Heap {
    /// The last block of a size that was given back.
    fn freed(&self, size: usize) -> &Cell<*mut u8> {
        &self.freed[size.ilog2() as usize]
    }

    /// A block that was never given out, or null where memory cannot grow.
    fn unused(&self, size: usize) -> *mut u8 {
        if self.room.get() < size {
            let pages = size.div_ceil(PAGE);
            let before = memory_grow::<0>(pages);
            if before == usize::MAX {
                return ptr::null_mut();
            }
            // Memory may end at 2^32. JavaScript may have grown it, too.
            let from = before.wrapping_mul(PAGE);
            if from != self.unused.get().wrapping_add(self.room.get()) {
                self.unused.set(from);
                self.room.set(0);
            }
            self.room.set(self.room.get() + pages * PAGE);
        }
        let block = self.unused.get();
        self.unused.set(block.wrapping_add(size));
        self.room.set(self.room.get() - size);
        ptr::with_exposed_provenance_mut(block)
    }
}

// SAFETY: a block is given out once, until it is given back, and has the size and alignment asked
// for, or it is null.
unsafe impl GlobalAlloc for Heap {
    unsafe fn alloc(&self, layout: Layout) -> *mut u8 {
        if layout.align() > LEAST {
            return ptr::null_mut();
        }
        let size = block_size(layout.size());
        let freed = self.freed(size);
        let block = freed.get();
        if block.is_null() {
            return self.unused(size);
        }
        // SAFETY: the block was given back, and `dealloc` wrote the address of the one before.
        freed.set(unsafe { block.cast::<*mut u8>().read() });
        block
    }

    unsafe fn dealloc(&self, block: *mut u8, layout: Layout) {
        let freed = self.freed(block_size(layout.size()));
        // SAFETY: the block was given out, with at least 16 bytes, and nothing uses it any more.
        unsafe { block.cast::<*mut u8>().write(freed.get()) };
        freed.set(block);
    }
}

/// The layout of what JavaScript takes; none of 2^31 bytes or more.
fn layout(size: usize) -> Option<Layout> {
    Layout::from_size_align(size, LEAST).ok()
}

/// Memory for so many bytes, aligned to 16, with any bytes in it; or null.
#[unsafe(no_mangle)]
pub extern "C" fn tz_wasm_alloc(size: usize) -> *mut u8 {
    // SAFETY: `alloc` asks nothing of a size that the heap rounds up.
    layout(size).map_or(ptr::null_mut(), |layout| unsafe { HEAP.alloc(layout) })
}

/// Gives memory back.
///
/// # Safety
///
/// `tz_wasm_alloc` returned the block for this size, and nothing uses it any more.
#[unsafe(no_mangle)]
pub unsafe extern "C" fn tz_wasm_free(block: *mut u8, size: usize) {
    let Some(layout) = layout(size) else {
        unreachable()
    };
    // SAFETY: the caller keeps it.
    unsafe { HEAP.dealloc(block, layout) }
}
