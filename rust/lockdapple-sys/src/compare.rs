//! Two grids compared, of the crate `compare`.

use crate::{
    given::Grid,
    records::{Comparison, Place, Shape},
};

unsafe extern "C" {
    fn lockdapple_grids_compare(
        comparison: *mut Comparison,
        first: Shape,
        first_rows: *const i16,
        first_rows_len: usize,
        first_cols: *const i16,
        first_cols_len: usize,
        first_sads: *const u32,
        first_sads_len: usize,
        second: Shape,
        second_rows: *const i16,
        second_rows_len: usize,
        second_cols: *const i16,
        second_cols_len: usize,
        second_sads: *const u32,
        second_sads_len: usize,
        from: usize,
    );

    fn lockdapple_grids_next(
        first: Shape,
        first_rows: *const i16,
        first_rows_len: usize,
        first_cols: *const i16,
        first_cols_len: usize,
        first_sads: *const u32,
        first_sads_len: usize,
        second: Shape,
        second_rows: *const i16,
        second_rows_len: usize,
        second_cols: *const i16,
        second_cols_len: usize,
        second_sads: *const u32,
        second_sads_len: usize,
        from: usize,
    ) -> Place;
}

/// Each grid with the shape that its reading gave back.
pub fn grids_compare(
    (first, first_grid): (Shape, Grid<'_>),
    (second, second_grid): (Shape, Grid<'_>),
    from: usize,
) -> Comparison {
    let mut comparison = Comparison::UNWRITTEN;
    // SAFETY: `comparison` can be written, and the buffers are lent with their own lengths.
    unsafe {
        lockdapple_grids_compare(
            &mut comparison,
            first,
            first_grid.rows.as_ptr(),
            first_grid.rows.len(),
            first_grid.cols.as_ptr(),
            first_grid.cols.len(),
            first_grid.sads.as_ptr(),
            first_grid.sads.len(),
            second,
            second_grid.rows.as_ptr(),
            second_grid.rows.len(),
            second_grid.cols.as_ptr(),
            second_grid.cols.len(),
            second_grid.sads.as_ptr(),
            second_grid.sads.len(),
            from,
        );
    }
    comparison
}

/// The first place of these alone.
pub fn grids_next(
    (first, first_grid): (Shape, Grid<'_>),
    (second, second_grid): (Shape, Grid<'_>),
    from: usize,
) -> Place {
    // SAFETY: the buffers are lent with their own lengths.
    unsafe {
        lockdapple_grids_next(
            first,
            first_grid.rows.as_ptr(),
            first_grid.rows.len(),
            first_grid.cols.as_ptr(),
            first_grid.cols.len(),
            first_grid.sads.as_ptr(),
            first_grid.sads.len(),
            second,
            second_grid.rows.as_ptr(),
            second_grid.rows.len(),
            second_grid.cols.as_ptr(),
            second_grid.cols.len(),
            second_grid.sads.as_ptr(),
            second_grid.sads.len(),
            from,
        )
    }
}
