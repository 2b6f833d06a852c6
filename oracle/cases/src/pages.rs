//! Memory with an unreadable page on either side.

use std::{ffi::c_void, mem::size_of, ptr, slice};

unsafe extern "C" {
    fn mmap(at: *mut c_void, len: usize, prot: i32, flags: i32, fd: i32, off: i64) -> *mut c_void;
    fn mprotect(at: *mut c_void, len: usize, prot: i32) -> i32;
    fn munmap(at: *mut c_void, len: usize) -> i32;
}

const PROT_NONE: i32 = 0;
const PROT_READ: i32 = 1;
const PROT_READ_WRITE: i32 = 3;
/// MAP_PRIVATE and MAP_ANONYMOUS as Linux numbers them.
const MAP_PRIVATE_ANONYMOUS: i32 = 0x22;
/// A multiple of every page size in use.
const PAGE: usize = 65_536;

/// Bytes or whole numbers.
pub struct Pages<T> {
    start: *mut T,
    len: usize,
}

impl<T: Copy + From<u8>> Pages<T> {
    /// At least so many items.
    pub fn new(least: usize) -> Self {
        let readable = (least * size_of::<T>()).next_multiple_of(PAGE);
        // SAFETY: a fresh mapping, of which all but the first and the last PAGE bytes are made readable.
        let start = unsafe {
            let (all, flags) = (readable + 2 * PAGE, MAP_PRIVATE_ANONYMOUS);
            let map = mmap(ptr::null_mut(), all, PROT_NONE, flags, -1, 0);
            assert!(map as isize != -1, "no memory");
            let start = map.byte_add(PAGE);
            assert_eq!(mprotect(start, readable, PROT_READ_WRITE), 0);
            start.cast()
        };
        Pages {
            start,
            len: readable / size_of::<T>(),
        }
    }

    pub fn items(&self) -> &[T] {
        // SAFETY: these bytes stay mapped and readable, any bits are a T, and only `items_mut` lends them to be written.
        unsafe { slice::from_raw_parts(self.start, self.len) }
    }

    /// After `protect` a write to them ends the run.
    pub fn items_mut(&mut self) -> &mut [T] {
        // SAFETY: as in `items`, and nothing else sees them meanwhile.
        unsafe { slice::from_raw_parts_mut(self.start, self.len) }
    }

    /// From now on they can only be read.
    pub fn protect(&mut self) {
        // SAFETY: the readable bytes that `new` made.
        let done = unsafe { mprotect(self.start.cast(), self.len * size_of::<T>(), PROT_READ) };
        assert_eq!(done, 0);
    }
}

impl<T> Drop for Pages<T> {
    fn drop(&mut self) {
        let all = self.len * size_of::<T>() + 2 * PAGE;
        // SAFETY: the mapping that `new` made, whole.
        unsafe { munmap(self.start.byte_sub(PAGE).cast(), all) };
    }
}
