//! The calls on one block, of the crate `inter`.

use crate::{
    given::{Block, Grid, Previous},
    records::{Ends, Found, Subsets, Vector},
};

unsafe extern "C" {
    fn lockdapple_rate(row: i16, col: i16) -> u32;

    fn lockdapple_range(
        width: usize,
        height: usize,
        level: usize,
        refined: usize,
        bx: usize,
        by: usize,
    ) -> Ends;

    fn lockdapple_candidate(
        found: *mut Found,
        width: usize,
        height: usize,
        level: usize,
        refined: usize,
        bx: usize,
        by: usize,
        cur: *const u8,
        cur_len: usize,
        reference: *const u8,
        reference_len: usize,
        row: i16,
        col: i16,
        weight: u32,
    );

    fn lockdapple_refine(
        found: *mut Found,
        width: usize,
        height: usize,
        level: usize,
        bx: usize,
        by: usize,
        cur: *const u8,
        cur_len: usize,
        reference: *const u8,
        reference_len: usize,
        rows: *const i16,
        rows_len: usize,
        cols: *const i16,
        cols_len: usize,
        sads: *const u32,
        sads_len: usize,
        weight: u32,
    );

    fn lockdapple_predictors(
        subsets: *mut Subsets,
        width: usize,
        height: usize,
        level: usize,
        bx: usize,
        by: usize,
        present: usize,
        prev_rows: *const i16,
        prev_rows_len: usize,
        prev_cols: *const i16,
        prev_cols_len: usize,
        prev_sads: *const u32,
        prev_sads_len: usize,
        rows: *const i16,
        rows_len: usize,
        cols: *const i16,
        cols_len: usize,
        sads: *const u32,
        sads_len: usize,
    );
}

pub fn rate(row: i16, col: i16) -> u32 {
    // SAFETY: no memory is lent.
    unsafe { lockdapple_rate(row, col) }
}

/// With `refined` not 0, of the larger block that the level refines first.
pub fn range(block: Block, refined: usize) -> Ends {
    let Block {
        width,
        height,
        level,
        bx,
        by,
    } = block;
    // SAFETY: no memory is lent.
    unsafe { lockdapple_range(width, height, level, refined, bx, by) }
}

/// `refined` as for `range`.
pub fn candidate(
    block: Block,
    refined: usize,
    cur: &[u8],
    reference: &[u8],
    vector: Vector,
    weight: u32,
) -> Found {
    let mut found = Found::UNWRITTEN;
    // SAFETY: `found` can be written, and both planes are lent with their own lengths.
    unsafe {
        lockdapple_candidate(
            &mut found,
            block.width,
            block.height,
            block.level,
            refined,
            block.bx,
            block.by,
            cur.as_ptr(),
            cur.len(),
            reference.as_ptr(),
            reference.len(),
            vector.row,
            vector.col,
            weight,
        );
    }
    found
}

/// Declares one of the three searches, and calls it.
macro_rules! search {
    ($declared:ident, $called:ident) => {
        unsafe extern "C" {
            fn $declared(
                found: *mut Found,
                width: usize,
                height: usize,
                level: usize,
                bx: usize,
                by: usize,
                cur: *const u8,
                cur_len: usize,
                reference: *const u8,
                reference_len: usize,
                row: i16,
                col: i16,
                weight: u32,
            );
        }

        /// The search from the vector `start`.
        pub fn $called(
            block: Block,
            cur: &[u8],
            reference: &[u8],
            start: Vector,
            weight: u32,
        ) -> Found {
            let mut found = Found::UNWRITTEN;
            // SAFETY: as in `candidate`.
            unsafe {
                $declared(
                    &mut found,
                    block.width,
                    block.height,
                    block.level,
                    block.bx,
                    block.by,
                    cur.as_ptr(),
                    cur.len(),
                    reference.as_ptr(),
                    reference.len(),
                    start.row,
                    start.col,
                    weight,
                );
            }
            found
        }
    };
}

search!(lockdapple_diamond, diamond);
search!(lockdapple_hexagon, hexagon);
search!(lockdapple_multi_hexagon, multi_hexagon);

/// Round the vector that the grid holds in the block's first cell.
pub fn refine(block: Block, cur: &[u8], reference: &[u8], grid: Grid<'_>, weight: u32) -> Found {
    let mut found = Found::UNWRITTEN;
    // SAFETY: `found` can be written, planes and buffers are lent with their own lengths.
    unsafe {
        lockdapple_refine(
            &mut found,
            block.width,
            block.height,
            block.level,
            block.bx,
            block.by,
            cur.as_ptr(),
            cur.len(),
            reference.as_ptr(),
            reference.len(),
            grid.rows.as_ptr(),
            grid.rows.len(),
            grid.cols.as_ptr(),
            grid.cols.len(),
            grid.sads.as_ptr(),
            grid.sads.len(),
            weight,
        );
    }
    found
}

pub fn predictors(block: Block, previous: Previous<'_>, grid: Grid<'_>) -> Subsets {
    let mut subsets = Subsets::UNWRITTEN;
    // SAFETY: `subsets` can be written, and the buffers are lent with their own lengths.
    unsafe {
        lockdapple_predictors(
            &mut subsets,
            block.width,
            block.height,
            block.level,
            block.bx,
            block.by,
            previous.present,
            previous.grid.rows.as_ptr(),
            previous.grid.rows.len(),
            previous.grid.cols.as_ptr(),
            previous.grid.cols.len(),
            previous.grid.sads.as_ptr(),
            previous.grid.sads.len(),
            grid.rows.as_ptr(),
            grid.rows.len(),
            grid.cols.as_ptr(),
            grid.cols.len(),
            grid.sads.as_ptr(),
            grid.sads.len(),
        );
    }
    subsets
}
