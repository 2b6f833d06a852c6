//! What grids hold.

use oracle::Grid;

use crate::random::Random;

pub const FILLS: [&str; 6] = [
    "anything",
    "near zero",
    "across the frame",
    "limits",
    "one vector",
    "blocks",
];

const COMPONENTS: [i16; 10] = [i16::MIN, i16::MAX, -16_383, 16_383, 0, 1, -1, 7, -9, -8];
const SADS: [u32; 6] = [0, 1, 16_384, 81_920, 1 << 31, u32::MAX];

/// Seeds of `cells` are below this.
pub const CELL_SEEDS: u64 = 1 << 32;

/// Row, column and normalised SAD of one cell.
fn cell(random: &mut Random, fill: usize, width: usize, height: usize) -> (i16, i16, u32) {
    let word = random.word();
    let mut within = |most: usize| random.between(-(most as isize), most as isize) as i16;
    match fill {
        0 => (word as i16, (word >> 16) as i16, (word >> 32) as u32),
        // Differences below 4 a sample.
        1 => (within(80), within(80), (word >> 48) as u32),
        // Whole differences below 8 a sample.
        2 => {
            let (row, col) = (within(8 * height), within(8 * width));
            (row, col, (word % 8) as u32 * 16_384)
        }
        3 => (
            random.pick(&COMPONENTS),
            random.pick(&COMPONENTS),
            random.pick(&SADS),
        ),
        // Whole pixels, and differences below 16 a sample.
        _ => (within(48) * 8, within(48) * 8, (word >> 46) as u32),
    }
}

/// The cells of a width by height frame.
pub fn cells(fill: usize, seed: u64, width: usize, height: usize) -> Grid {
    let mut random = Random::new(seed);
    let (across, down) = (width / 4, height / 4);
    // Cells on a side that hold the same.
    let side = match fill {
        4 => across.max(down),
        5 => 4,
        _ => 1,
    };
    let drawn = across.div_ceil(side);
    let all: Vec<_> = (0..drawn * down.div_ceil(side))
        .map(|_| cell(&mut random, fill, width, height))
        .collect();
    let at = |i: usize| all[i / across / side * drawn + i % across / side];
    let all: Vec<_> = (0..across * down).map(at).collect();
    Grid {
        rows: all.iter().map(|c| c.0).collect(),
        cols: all.iter().map(|c| c.1).collect(),
        sads: all.iter().map(|c| c.2).collect(),
    }
}
