//! The three functions by which the library takes memory, over the C library's heap.
use std::ffi::c_void;
use std::ptr::NonNull;

unsafe extern "C" {
    fn malloc(size: usize) -> *mut c_void;
    fn realloc(block: *mut c_void, size: usize) -> *mut c_void;
    fn free(block: *mut c_void);
}

/// Whether there was memory, and where. The pointer is never null.
#[repr(C)]
struct Block {
    is_there: bool,
    at: *mut c_void,
}

impl Block {
    fn of(at: *mut c_void) -> Block {
        match NonNull::new(at) {
            Some(at) => Block { is_there: true, at: at.as_ptr() },
            None => Block { is_there: false, at: NonNull::<u128>::dangling().as_ptr().cast() },
        }
    }
}

// An alignment is at most 16, and the C library aligns each block to 16.
#[unsafe(no_mangle)]
extern "C" fn rattle_alloc(size: usize, align: usize) -> Block {
    // SAFETY: `malloc` takes any size.
    Block::of(unsafe { malloc(if size == 0 { align } else { size }) })
}

#[unsafe(no_mangle)]
unsafe extern "C" fn rattle_realloc(block: *mut c_void, _used: usize, size: usize, align: usize) -> Block {
    // SAFETY: the library hands over a block that one of these functions gave, and uses the new one alone from then on.
    Block::of(unsafe { realloc(block, if size == 0 { align } else { size }) })
}

#[unsafe(no_mangle)]
unsafe extern "C" fn rattle_dealloc(block: *mut c_void) {
    // SAFETY: the library hands over a block that one of these functions gave, and uses it no more.
    unsafe { free(block) }
}
