//! The row of two grids compared: the largest ones, of which some cells differ.

use std::hint::black_box;

use lockdapple_sys::{Comparison, Shape, grids_compare};
use oracle::Grid;

use crate::{
    files::{ACROSS, Row, copy, kept, piece},
    lent::lent,
    loops,
    rounds::{Times, rounds},
};

pub const ROW: Row = ("grid compare", times);

/// The shape that reading the largest file gives back.
const SHAPE: Shape = Shape {
    code: 0,
    columns: ACROSS as u32,
    rows: ACROSS as u32,
};

/// As `loops::compare`.
fn compare(first: &Grid, second: &Grid) -> (u64, u64) {
    let Comparison { code, count, first } =
        grids_compare((SHAPE, lent(first)), (SHAPE, lent(second)), 0);
    assert_eq!(code, 0);
    (count, first)
}

/// The times of comparing two grids; or, where the columns answer differently, what
/// they differ on.
fn times() -> Result<Times, String> {
    let (grid, file) = kept();
    let mut other = grid.clone();
    // One cell of sixteen, the first of them in the second row, by each of its numbers.
    for cell in (ACROSS..ACROSS * ACROSS).step_by(16) {
        match cell / 16 % 3 {
            0 => other.rows[cell] ^= 1,
            1 => other.cols[cell] ^= 1,
            _ => other.sads[cell] ^= 1,
        }
    }
    let answer = loops::compare(&grid, &other);
    let column = |turns, compare: fn(&Grid, &Grid) -> _| {
        piece(&(0, 0), &answer, turns, |to| {
            *to = compare(black_box(&grid), black_box(&other));
            true
        })
    };
    rounds(&|[first, second, third]| {
        let (rust, copied) = (column(first, loops::compare)?, copy(&file, second)?);
        Ok([rust, copied, column(third, compare)?])
    })
}
