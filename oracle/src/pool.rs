//! An allocator with lists of free blocks for each thread: types.rs copies its
//! states at every step, and most of a run's time would go into the general
//! allocator. Used by the programs only.

use std::alloc::{GlobalAlloc, Layout, System};
use std::cell::Cell;
use std::ptr::null_mut;

pub struct Pool;

/// Blocks of 16, 32, .. bytes up to the 12th power.
const CLASSES: usize = 12;
const SMALLEST: u32 = 4;
const LARGEST: usize = 1 << (SMALLEST as usize + CLASSES - 1);
const FRESH: usize = 1 << 20;

thread_local! {
    static FREE: [Cell<*mut u8>; CLASSES] = const { [const { Cell::new(null_mut()) }; CLASSES] };
    static REST: Cell<(usize, usize)> = const { Cell::new((0, 0)) };
}

fn class(layout: &Layout) -> Option<usize> {
    if layout.align() > 16 || layout.size() > LARGEST || layout.size() == 0 {
        return None;
    }
    let bits = (layout.size() - 1 | 15).ilog2() + 1;
    Some((bits - SMALLEST) as usize)
}

/// A block cut from this thread's fresh memory.
fn fresh(class: usize) -> *mut u8 {
    let size = 1usize << (class + SMALLEST as usize);
    let (mut at, mut end) = REST.get();
    if end - at < size {
        // SAFETY: the layout is not empty and its alignment is a power of two.
        at = unsafe { System.alloc(Layout::from_size_align_unchecked(FRESH, 16)) } as usize;
        if at == 0 {
            return null_mut();
        }
        end = at + FRESH;
    }
    REST.set((at + size, end));
    at as *mut u8
}

// SAFETY: a block of a class is at least as large as its layout and aligned to
// 16; it is either in use or in one thread's list of that class, since the
// class follows from the layout, which is the same when it is given back.
unsafe impl GlobalAlloc for Pool {
    unsafe fn alloc(&self, layout: Layout) -> *mut u8 {
        let Some(class) = class(&layout) else { return unsafe { System.alloc(layout) } };
        FREE.with(|free| {
            let first = free[class].get();
            if first.is_null() {
                return fresh(class);
            }
            // A free block begins with the address of the next.
            free[class].set(unsafe { *first.cast::<*mut u8>() });
            first
        })
    }
    unsafe fn dealloc(&self, block: *mut u8, layout: Layout) {
        let Some(class) = class(&layout) else { return unsafe { System.dealloc(block, layout) } };
        FREE.with(|free| {
            unsafe { *block.cast::<*mut u8>() = free[class].get() };
            free[class].set(block);
        })
    }
}
