//! What a column can be asked for, everything but the call itself made ready before
//! its time counts.

use oracle::{BlockAt, Found, Grid, Search};

use crate::clock::timed;

/// A vector's row and column.
pub type Vector = (i16, i16);

pub trait Column {
    /// Nanoseconds of one of `turns` frame runs, the first on the grid `first`, each
    /// other on what the one before left, and what the last leaves.
    fn frame_runs(&self, first: &Grid, previous: Option<&Grid>, turns: usize) -> (f64, Grid);

    /// Nanoseconds of the cost of one of these vectors, and the sum of the costs.
    fn costs(&self, at: &BlockAt, vectors: &[Vector], turns: usize) -> (f64, u64);

    /// Nanoseconds of one of `turns` searches from a vector, and what it finds.
    fn searches(&self, search: Search, at: &BlockAt, start: Vector, turns: usize) -> (f64, Found);

    /// Nanoseconds of the SAD of one of these vectors by the kernel alone, and the
    /// sum of the SADs; None where it cannot be called.
    fn sads(&self, at: &BlockAt, vectors: &[Vector], turns: usize) -> Option<(f64, u32)>;
}

/// The time that each of the summed items takes, and the last sum.
pub fn summed<S: Default>(items: usize, turns: usize, mut sum: impl FnMut() -> S) -> (f64, S) {
    let mut last = S::default();
    let time = timed(turns, || last = sum());
    (time / items as f64, last)
}
