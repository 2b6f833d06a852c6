//! The proved code as a column.

use cases::Frame;
use lockdapple_sys::{self as sys, Block, Planes, Previous};
use oracle::{BlockAt, Found, Grid, Search};

use crate::{
    clock::timed,
    column::{Column, Vector, summed},
    lent::{NONE, lent, lent_mut},
};

pub struct Ours<'a> {
    frame: &'a Frame,
    /// Every superblock in raster order.
    list: Vec<u16>,
}

impl<'a> Ours<'a> {
    pub fn new(frame: &'a Frame) -> Self {
        let superblocks = frame.width.div_ceil(64) * frame.height.div_ceil(64);
        Ours {
            frame,
            list: (0..superblocks as u16).collect(),
        }
    }

    fn run(&self, previous: Option<&Grid>, grid: &mut Grid) -> u32 {
        let planes = self.frame.planes.each_ref();
        let [cur, reference] = planes.map(|[full, half, quarter]| Planes {
            full,
            half,
            quarter,
        });
        let previous = Previous {
            present: usize::from(previous.is_some()),
            grid: previous.map_or(NONE, lent),
        };
        let (width, height) = (self.frame.width, self.frame.height);
        sys::frame_run(
            width,
            height,
            cur,
            reference,
            previous,
            &self.list,
            lent_mut(grid),
        )
    }

    fn cost(&self, at: &BlockAt, (row, col): Vector) -> u64 {
        let [[cur, ..], [reference, ..]] = &self.frame.planes;
        let vector = sys::Vector { row, col };
        sys::candidate(block(at), at.refined.into(), cur, reference, vector, 0).cost
    }

    fn search(&self, search: Search, at: &BlockAt, (row, col): Vector) -> sys::Found {
        let [[cur, ..], [reference, ..]] = &self.frame.planes;
        let search = match search {
            Search::Diamond => sys::diamond,
            Search::Hexagon => sys::hexagon,
            Search::UnevenMultiHexagon => sys::multi_hexagon,
        };
        search(block(at), cur, reference, sys::Vector { row, col }, 0)
    }
}

fn block(at: &BlockAt) -> Block {
    Block {
        width: at.width,
        height: at.height,
        level: at.level,
        bx: at.bx,
        by: at.by,
    }
}

impl Column for Ours<'_> {
    fn frame_runs(&self, first: &Grid, previous: Option<&Grid>, turns: usize) -> (f64, Grid) {
        let mut grid = first.clone();
        let time = timed(turns, || assert_eq!(self.run(previous, &mut grid), 0));
        (time, grid)
    }

    fn costs(&self, at: &BlockAt, vectors: &[Vector], turns: usize) -> (f64, u64) {
        assert_eq!(at.level, 2);
        let cost = |&vector: &Vector| self.cost(at, vector);
        summed(vectors.len(), turns, || {
            vectors.iter().map(cost).fold(0, u64::wrapping_add)
        })
    }

    fn searches(&self, search: Search, at: &BlockAt, start: Vector, turns: usize) -> (f64, Found) {
        assert_eq!(at.level, 2);
        let mut last = None;
        let time = timed(turns, || last = Some(self.search(search, at, start)));
        let sys::Found {
            code,
            row,
            col,
            sad,
            cost,
        } = last.unwrap();
        assert_eq!(code, 0);
        (
            time,
            Found {
                row,
                col,
                sad,
                cost,
            },
        )
    }

    /// It exports no bare SAD.
    fn sads(&self, _: &BlockAt, _: &[Vector], _: usize) -> Option<(f64, u32)> {
        None
    }
}
