//! The published Rust as two columns: as it is, and with a SAD kernel in the
//! processor's own instructions.

use cases::Frame;
use oracle::{BlockAt, Found, Grid, Search};

use crate::{
    clock::timed,
    column::{Column, Vector, summed},
};

// Two crates with the same texts but for the kernel have two of every type.
macro_rules! published {
    ($column:ident, $published:ident) => {
        pub struct $column($published::Oracle);

        impl $column {
            pub fn new(frame: &Frame) -> Self {
                let planes = frame.planes.each_ref();
                let [cur, reference] = planes.map(|three| three.each_ref().map(|plane| &plane[..]));
                $column($published::Oracle::new(
                    frame.width,
                    frame.height,
                    cur,
                    reference,
                ))
            }

            fn grid(grid: &Grid) -> $published::Grid {
                let Grid { rows, cols, sads } = grid.clone();
                $published::Grid { rows, cols, sads }
            }

            fn block(at: &BlockAt) -> $published::BlockAt {
                $published::BlockAt {
                    width: at.width,
                    height: at.height,
                    level: at.level,
                    refined: at.refined,
                    bx: at.bx,
                    by: at.by,
                }
            }
        }

        impl Column for $column {
            fn frame_runs(
                &self,
                first: &Grid,
                previous: Option<&Grid>,
                turns: usize,
            ) -> (f64, Grid) {
                let (first, previous) = (Self::grid(first), previous.map(Self::grid));
                let runs = |run: &mut dyn FnMut()| timed(turns, run);
                let (time, left) = self.0.ready_run(&first, previous.as_ref(), runs);
                let $published::Grid { rows, cols, sads } = left;
                (time, Grid { rows, cols, sads })
            }

            fn costs(&self, at: &BlockAt, vectors: &[Vector], turns: usize) -> (f64, u64) {
                let costs = |sum: &mut dyn FnMut() -> u64| summed(vectors.len(), turns, sum);
                self.0.ready_costs(&Self::block(at), vectors, costs)
            }

            fn searches(
                &self,
                search: Search,
                at: &BlockAt,
                (row, col): Vector,
                turns: usize,
            ) -> (f64, Found) {
                let search = match search {
                    Search::Diamond => $published::Search::Diamond,
                    Search::Hexagon => $published::Search::Hexagon,
                    Search::UnevenMultiHexagon => $published::Search::UnevenMultiHexagon,
                };
                let at = Self::block(at);
                let (time, found) = self.0.ready_search(search, &at, row, col, 0, |found| {
                    let mut last = None;
                    let time = timed(turns, || last = Some(found()));
                    (time, last.unwrap())
                });
                let $published::Found {
                    row,
                    col,
                    sad,
                    cost,
                } = found;
                (
                    time,
                    Found {
                        row,
                        col,
                        sad,
                        cost,
                    },
                )
            }

            fn sads(&self, at: &BlockAt, vectors: &[Vector], turns: usize) -> Option<(f64, u32)> {
                let sads = |sum: &mut dyn FnMut() -> u32| summed(vectors.len(), turns, sum);
                Some(self.0.ready_sads(&Self::block(at), vectors, sads))
            }
        }
    };
}

published!(Plain, oracle);
published!(Simd, oracle_simd);
