//! The buffers of a call, as they are lent.

use cases::{Memory, Place};
use lockdapple_sys as sys;

use crate::{grid::Grid, judge::file_len};

/// Junk on either side of a buffer.
const MARGIN: usize = 256;

/// The longest buffers that can be lent are this much longer than those of the
/// largest grid and its file.
pub const LONGER: usize = 64;
pub const MOST_CELLS: usize = 256 * 256 + LONGER;
pub const MOST_BYTES: usize = file_len(256 * 256) + LONGER;

/// A grid's three buffers.
pub struct Cells {
    pub rows: Memory<i16>,
    pub cols: Memory<i16>,
    pub sads: Memory<u32>,
}

impl Cells {
    fn new() -> Self {
        Cells {
            rows: Memory::new(MOST_CELLS, MARGIN),
            cols: Memory::new(MOST_CELLS, MARGIN),
            sads: Memory::new(MOST_CELLS, MARGIN),
        }
    }

    pub fn put(&mut self, place: Place, grid: &Grid) {
        self.rows.put(place, &grid.rows);
        self.cols.put(place, &grid.cols);
        self.sads.put(place, &grid.sads);
    }

    fn lend(&self) -> sys::Grid<'_> {
        sys::Grid {
            rows: self.rows.lend(),
            cols: self.cols.lend(),
            sads: self.sads.lend(),
        }
    }

    fn lend_mut(&mut self) -> sys::GridMut<'_> {
        sys::GridMut {
            rows: self.rows.lend_mut(),
            cols: self.cols.lend_mut(),
            sads: self.sads.lend_mut(),
        }
    }
}

pub struct Lent {
    pub cells: Cells,
    /// Of a second grid, where two are compared.
    pub others: Cells,
    pub file: Memory<u8>,
}

impl Lent {
    pub fn new() -> Self {
        Lent {
            cells: Cells::new(),
            others: Cells::new(),
            file: Memory::new(MOST_BYTES, MARGIN),
        }
    }

    pub fn put(&mut self, place: Place, grid: &Grid, file: &[u8]) {
        self.cells.put(place, grid);
        self.file.put(place, file);
    }

    /// The proved writing of the grid, for a frame of these sides.
    pub fn write(&mut self, width: usize, height: usize) -> sys::Written {
        sys::grid_write(width, height, self.cells.lend(), self.file.lend_mut())
    }

    /// The proved reading of the file.
    pub fn read(&mut self) -> sys::Shape {
        sys::grid_read(self.file.lend(), self.cells.lend_mut())
    }

    /// The proved look at the file's header.
    pub fn peek(&self) -> sys::Peek {
        sys::grid_peek(self.file.lend())
    }

    /// The proved taking in of the file as a fragment.
    pub fn take(&mut self, reader: sys::Reader) -> sys::Reader {
        sys::reader_take(reader, self.file.lend(), self.cells.lend_mut())
    }

    /// The proved comparison of the two grids from a cell on, and the next place by
    /// itself.
    pub fn compare(
        &self,
        first: sys::Shape,
        second: sys::Shape,
        from: usize,
    ) -> (sys::Comparison, sys::Place) {
        let pairs = || ((first, self.cells.lend()), (second, self.others.lend()));
        let ((one, other), (again, beside)) = (pairs(), pairs());
        (
            sys::grids_compare(one, other, from),
            sys::grids_next(again, beside, from),
        )
    }
}
