//! Grids, and what they hold.

use cases::Random;

/// Three buffers, each of a length of its own where a grid is lent.
#[derive(Clone, Debug, Default, PartialEq, Eq)]
pub struct Grid {
    pub rows: Vec<i16>,
    pub cols: Vec<i16>,
    pub sads: Vec<u32>,
}

/// Limits, and numbers whose bytes are all alike, all different or the mark's.
const COMPONENTS: [i16; 8] = [0, -1, 1, i16::MIN, i16::MAX, 0x0102, 0x474C, 0x4C47];
const SADS: [u32; 8] = [
    0,
    1,
    255,
    1 << 16,
    1 << 31,
    u32::MAX,
    0x0102_0304,
    0x474C_474C,
];
const BYTES: [u8; 4] = [0, 0xFF, 0x4C, 0x47];

/// So many of the limits and of any numbers, both as often.
fn numbers<T: Copy, const N: usize>(
    seed: u64,
    len: usize,
    limits: [T; N],
    any: impl Fn(u64) -> T,
) -> Vec<T> {
    let mut random = Random::new(seed);
    let mut one = || match random.word() {
        word if word >> 63 == 0 => limits[word as usize % N],
        word => any(word),
    };
    (0..len).map(|_| one()).collect()
}

pub fn bytes(seed: u64, len: usize) -> Vec<u8> {
    numbers(seed, len, BYTES, |word| word as u8)
}

impl Grid {
    /// The buffers of a seed; a shorter one has the first numbers of a longer one.
    pub fn new(seed: u64, lens: [usize; 3]) -> Self {
        let [rows, cols, sads] = lens;
        Grid {
            rows: numbers(seed, rows, COMPONENTS, |word| word as i16),
            cols: numbers(!seed, cols, COMPONENTS, |word| word as i16),
            sads: numbers(seed.rotate_left(32), sads, SADS, |word| word as u32),
        }
    }

    /// The shortest buffer's length.
    pub fn room(&self) -> usize {
        let lens = [self.rows.len(), self.cols.len(), self.sads.len()];
        lens.into_iter().min().unwrap_or(0)
    }

    /// Row, col and SAD of each cell that all three buffers have.
    pub fn cells(&self) -> impl Iterator<Item = (i16, i16, u32)> {
        let vectors = self.rows.iter().zip(&self.cols);
        let cells = vectors.zip(&self.sads);
        cells.map(|((&row, &col), &sad)| (row, col, sad))
    }

    /// The first cells, or None where a buffer has not so many.
    pub fn first(&self, cells: usize) -> Option<Grid> {
        Some(Grid {
            rows: self.rows.get(..cells)?.to_vec(),
            cols: self.cols.get(..cells)?.to_vec(),
            sads: self.sads.get(..cells)?.to_vec(),
        })
    }

    /// Puts another grid's cells in place of the first.
    pub fn put(&mut self, cells: &Grid) {
        self.rows[..cells.rows.len()].copy_from_slice(&cells.rows);
        self.cols[..cells.cols.len()].copy_from_slice(&cells.cols);
        self.sads[..cells.sads.len()].copy_from_slice(&cells.sads);
    }

    /// The first of these numbers, with another grid's cells in place of the first.
    pub fn holding(&self, cells: &Grid, lens: [usize; 3]) -> Grid {
        let mut grid = self.clone();
        grid.put(cells);
        let [rows, cols, sads] = lens;
        grid.rows.truncate(rows);
        grid.cols.truncate(cols);
        grid.sads.truncate(sads);
        grid
    }
}
