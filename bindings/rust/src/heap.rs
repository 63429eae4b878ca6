//! The memory of the library: the three functions that it calls, over those of the C library, as in `bindings/c/hazoxe_heap.c`.

use std::ffi::c_void;

extern "C" {
    fn malloc(size: usize) -> *mut c_void;
    fn realloc(at: *mut c_void, size: usize) -> *mut c_void;
    fn free(at: *mut c_void);
}

/// A block, or that there is none; its address is never null.
#[repr(C)]
pub struct Block {
    is_there: u64,
    at: *mut c_void,
}

static NOTHING: u8 = 0;

fn block_at(at: *mut c_void) -> Block {
    if at.is_null() {
        Block { is_there: 0, at: (&raw const NOTHING).cast_mut().cast() }
    } else {
        Block { is_there: 1, at }
    }
}

/// A block of no bytes is asked for as one of its alignment, so that it has an address.
fn asked(size: usize, align: usize) -> usize {
    if size > 0 { size } else { align }
}

#[no_mangle]
unsafe extern "C" fn rattle_alloc(size: usize, align: usize) -> Block {
    block_at(malloc(asked(size, align)))
}

#[no_mangle]
unsafe extern "C" fn rattle_realloc(at: *mut c_void, _old: usize, size: usize, align: usize) -> Block {
    block_at(realloc(at, asked(size, align)))
}

#[no_mangle]
unsafe extern "C" fn rattle_dealloc(at: *mut c_void) {
    free(at);
}
