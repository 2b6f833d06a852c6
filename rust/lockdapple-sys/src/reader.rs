//! A grid file that comes in fragments, of the crate `reader`.

use crate::{given::GridMut, records::Reader};

unsafe extern "C" {
    fn lockdapple_reader_new(next: *mut Reader);

    fn lockdapple_reader_take(
        next: *mut Reader,
        reader: Reader,
        fragment: *const u8,
        fragment_len: usize,
        rows: *mut i16,
        rows_len: usize,
        cols: *mut i16,
        cols_len: usize,
        sads: *mut u32,
        sads_len: usize,
    );

    fn lockdapple_reader_end(next: *mut Reader, reader: Reader);
}

pub fn reader_new() -> Reader {
    let mut next = Reader::UNWRITTEN;
    // SAFETY: `next` can be written.
    unsafe { lockdapple_reader_new(&mut next) };
    next
}

pub fn reader_take(reader: Reader, fragment: &[u8], grid: GridMut<'_>) -> Reader {
    let mut next = Reader::UNWRITTEN;
    // SAFETY: `next` can be written, and the buffers are lent with their own lengths.
    unsafe {
        lockdapple_reader_take(
            &mut next,
            reader,
            fragment.as_ptr(),
            fragment.len(),
            grid.rows.as_mut_ptr(),
            grid.rows.len(),
            grid.cols.as_mut_ptr(),
            grid.cols.len(),
            grid.sads.as_mut_ptr(),
            grid.sads.len(),
        );
    }
    next
}

pub fn reader_end(reader: Reader) -> Reader {
    let mut next = Reader::UNWRITTEN;
    // SAFETY: `next` can be written.
    unsafe { lockdapple_reader_end(&mut next, reader) };
    next
}
