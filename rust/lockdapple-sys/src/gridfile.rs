//! Grid files read and written whole, of the crate `gridfile`.

use crate::{
    given::{Grid, GridMut},
    records::{Peek, Shape, Written},
};

unsafe extern "C" {
    fn lockdapple_grid_write(
        width: usize,
        height: usize,
        rows: *const i16,
        rows_len: usize,
        cols: *const i16,
        cols_len: usize,
        sads: *const u32,
        sads_len: usize,
        file: *mut u8,
        file_len: usize,
    ) -> Written;

    fn lockdapple_grid_read(
        file: *const u8,
        file_len: usize,
        rows: *mut i16,
        rows_len: usize,
        cols: *mut i16,
        cols_len: usize,
        sads: *mut u32,
        sads_len: usize,
    ) -> Shape;

    fn lockdapple_grid_peek(peek: *mut Peek, file: *const u8, file_len: usize);
}

pub fn grid_write(width: usize, height: usize, grid: Grid<'_>, file: &mut [u8]) -> Written {
    // SAFETY: the buffers are lent with their own lengths.
    unsafe {
        lockdapple_grid_write(
            width,
            height,
            grid.rows.as_ptr(),
            grid.rows.len(),
            grid.cols.as_ptr(),
            grid.cols.len(),
            grid.sads.as_ptr(),
            grid.sads.len(),
            file.as_mut_ptr(),
            file.len(),
        )
    }
}

pub fn grid_read(file: &[u8], grid: GridMut<'_>) -> Shape {
    // SAFETY: the buffers are lent with their own lengths.
    unsafe {
        lockdapple_grid_read(
            file.as_ptr(),
            file.len(),
            grid.rows.as_mut_ptr(),
            grid.rows.len(),
            grid.cols.as_mut_ptr(),
            grid.cols.len(),
            grid.sads.as_mut_ptr(),
            grid.sads.len(),
        )
    }
}

/// The first four bytes of a file are enough.
pub fn grid_peek(file: &[u8]) -> Peek {
    let mut peek = Peek::UNWRITTEN;
    // SAFETY: `peek` can be written, and the bytes are lent with their own length.
    unsafe { lockdapple_grid_peek(&mut peek, file.as_ptr(), file.len()) };
    peek
}
