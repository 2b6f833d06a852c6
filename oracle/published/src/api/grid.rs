//! Document 01's grid, and the published grid filled from it and read back.

use crate::data::motion::{FrameMEStats, MEStats, MotionVector};

/// Cells row by row.
#[derive(Clone, Debug, PartialEq, Eq)]
pub struct Grid {
    pub rows: Vec<i16>,
    pub cols: Vec<i16>,
    pub sads: Vec<u32>,
}

pub fn fill(stats: &mut FrameMEStats, grid: &Grid) {
    let cols = stats.cols;
    for y in 0..stats.rows {
        for x in 0..cols {
            let i = y * cols + x;
            stats[y][x] = MEStats {
                mv: MotionVector {
                    row: grid.rows[i],
                    col: grid.cols[i],
                },
                normalized_sad: grid.sads[i],
            };
        }
    }
}

pub fn read(stats: &FrameMEStats) -> Grid {
    let cells: Vec<MEStats> = (0..stats.rows).flat_map(|y| stats[y].to_vec()).collect();
    Grid {
        rows: cells.iter().map(|c| c.mv.row).collect(),
        cols: cells.iter().map(|c| c.mv.col).collect(),
        sads: cells.iter().map(|c| c.normalized_sad).collect(),
    }
}
