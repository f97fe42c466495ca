//! The calls of `libras_c.a`, and the three functions of the allocator that it needs, over the C library's heap.
//!
//! The crate `ras` has safe calls and syntax trees over these. A library with another number than [`VERSION`] has other kinds and calls:
//! compare [`ras_c_version`] with it before any other call.
mod heap;
mod raw;

pub use raw::*;
