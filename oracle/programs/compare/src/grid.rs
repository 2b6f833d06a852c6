//! A grid as it is lent, in three buffers.

use cases::Memory;
use lockdapple_sys as sys;
use oracle::Grid;

use crate::lend::lent;

pub struct LentGrid {
    pub cells: Grid,
    /// Lengths of the rows, the columns and the SADs.
    pub lens: [usize; 3],
    rows: Memory<i16>,
    cols: Memory<i16>,
    sads: Memory<u32>,
}

/// A buffer's item that is not what it should be; its place counts from the
/// buffer's start.
pub struct Difference {
    pub buffer: &'static str,
    pub place: isize,
    pub should: i128,
    pub is: i128,
}

fn difference<T>(buffer: &'static str, memory: &Memory<T>, should: &[T]) -> Option<Difference>
where
    T: Copy + From<u8> + PartialEq,
    i128: From<T>,
{
    let (place, should, is) = memory.first_difference(should)?;
    Some(Difference {
        buffer,
        place,
        should: should.into(),
        is: is.into(),
    })
}

impl LentGrid {
    /// A grid that can be written.
    pub fn new(cells: Grid, lens: [usize; 3], guarded: bool) -> Self {
        LentGrid {
            lens,
            rows: lent(&cells.rows, guarded),
            cols: lent(&cells.cols, guarded),
            sads: lent(&cells.sads, guarded),
            cells,
        }
    }

    /// The same, only to be read.
    pub fn protected(mut self) -> Self {
        self.rows.protect();
        self.cols.protect();
        self.sads.protect();
        self
    }

    /// The buffers, or None where the grid has none so long.
    pub fn lend(&self) -> Option<sys::Grid<'_>> {
        let [rows, cols, sads] = self.lens;
        Some(sys::Grid {
            rows: self.rows.lend_part(rows)?,
            cols: self.cols.lend_part(cols)?,
            sads: self.sads.lend_part(sads)?,
        })
    }

    pub fn lend_mut(&mut self) -> Option<sys::GridMut<'_>> {
        let [rows, cols, sads] = self.lens;
        Some(sys::GridMut {
            rows: self.rows.lend_part_mut(rows)?,
            cols: self.cols.lend_part_mut(cols)?,
            sads: self.sads.lend_part_mut(sads)?,
        })
    }

    /// The first item that is not as in `should`, or round it not as before.
    pub fn first_difference(&self, should: &Grid) -> Option<Difference> {
        difference("row", &self.rows, &should.rows)
            .or_else(|| difference("col", &self.cols, &should.cols))
            .or_else(|| difference("sad", &self.sads, &should.sads))
    }
}
