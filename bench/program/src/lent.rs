//! Grids as they are lent to the proved code.

use lockdapple_sys as sys;
use oracle::Grid;

/// What is lent for a grid that is absent.
pub const NONE: sys::Grid<'static> = sys::Grid {
    rows: &[],
    cols: &[],
    sads: &[],
};

pub fn lent(Grid { rows, cols, sads }: &Grid) -> sys::Grid<'_> {
    sys::Grid { rows, cols, sads }
}

pub fn lent_mut(Grid { rows, cols, sads }: &mut Grid) -> sys::GridMut<'_> {
    sys::GridMut { rows, cols, sads }
}

pub fn zeros(cells: usize) -> Grid {
    Grid {
        rows: vec![0; cells],
        cols: vec![0; cells],
        sads: vec![0; cells],
    }
}
