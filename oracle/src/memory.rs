//! The allocator. The Rust reserves room for as many children as a term
//! announces before it reads the first, up to 2^32 of them. Large blocks are
//! therefore mapped without being reserved: only touched pages cost memory.

use std::alloc::{GlobalAlloc, Layout, System};
use std::ffi::c_void;
use std::ptr::null_mut;

unsafe extern "C" {
    fn mmap(at: *mut c_void, len: usize, prot: i32, flags: i32, fd: i32, off: i64) -> *mut c_void;
    fn munmap(at: *mut c_void, len: usize) -> i32;
}

// Linux, the same on x86-64 and on aarch64.
const PROT_READ_WRITE: i32 = 1 | 2;
const MAP_PRIVATE_ANONYMOUS_NORESERVE: i32 = 0x2 | 0x20 | 0x4000;

const LARGE: usize = 1 << 20;

struct Mapping;

#[global_allocator]
static MAPPING: Mapping = Mapping;

unsafe impl GlobalAlloc for Mapping {
    unsafe fn alloc(&self, layout: Layout) -> *mut u8 {
        if layout.size() <= LARGE {
            return unsafe { System.alloc(layout) };
        }
        let at = unsafe {
            mmap(
                null_mut(),
                layout.size(),
                PROT_READ_WRITE,
                MAP_PRIVATE_ANONYMOUS_NORESERVE,
                -1,
                0,
            )
        };
        // mmap fails with -1; the Rust then ends with its own message.
        if at as isize == -1 {
            null_mut()
        } else {
            at.cast()
        }
    }

    unsafe fn dealloc(&self, at: *mut u8, layout: Layout) {
        if layout.size() <= LARGE {
            unsafe { System.dealloc(at, layout) }
        } else {
            unsafe { munmap(at.cast(), layout.size()) };
        }
    }

    unsafe fn alloc_zeroed(&self, layout: Layout) -> *mut u8 {
        if layout.size() <= LARGE {
            unsafe { System.alloc_zeroed(layout) }
        } else {
            // Fresh pages hold zeros already.
            unsafe { self.alloc(layout) }
        }
    }
}
