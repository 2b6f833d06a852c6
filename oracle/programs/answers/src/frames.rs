//! The cases of whole frames.

use cases::{Frame, Random, SEEDS, cells};
use oracle::{BlockAt, Found, Grid};

use crate::lists::{EACH, Kind, SEED, line};

/// Sides of frames: one superblock, two by one and two by two, all cropped.
const SIDES: [(usize, usize); 3] = [(24, 16), (72, 40), (72, 72)];

/// The content, by its number, of which the smallest frame gives every cell.
const EVERY_CELL: usize = 4;

/// Added to the seed, so that frames are drawn apart from the other lists.
const FRAME_DRAWS: u64 = 1;

/// A grid whose cell i holds row i·37 mod 257 − 128, column i·91 mod 385 − 192
/// and SAD i·7,919 mod 65,536.
fn previous(count: usize) -> Grid {
    let component = |i: usize, by, modulus| (i * by % modulus) as i16 - (modulus / 2) as i16;
    Grid {
        rows: (0..count).map(|i| component(i, 37, 257)).collect(),
        cols: (0..count).map(|i| component(i, 91, 385)).collect(),
        sads: (0..count).map(|i| (i * 7_919 % 65_536) as u32).collect(),
    }
}

/// Folds row + 32,768, column + 32,768 and SAD of each cell in turn, no number on
/// the way reaching 2^48.
fn sum(grid: &Grid) -> u64 {
    let cells = grid.rows.iter().zip(&grid.cols).zip(&grid.sads);
    let numbers = cells.flat_map(|((&row, &col), &sad)| {
        let [row, col] = [row, col].map(|v| (i64::from(v) + 32_768) as u64);
        [row, col, sad.into()]
    });
    numbers.fold(0, |sum, n| (sum * 65_599 + n) % 2_147_483_647)
}

/// The lines of one frame: every cell, or the last.
fn frame(width: usize, height: usize, content: usize, seed: u64, present: bool) -> Vec<String> {
    let count = width / 4 * (height / 4);
    let oracle = Frame::new(width, height, content, seed).oracle();
    let previous = present.then(|| previous(count));
    // What the grid held before a run shows nowhere.
    let grid = oracle.frame_run(&cells(0, SEED, width, height), previous.as_ref());
    let all = (width, height) == SIDES[0] && content == EVERY_CELL;
    let first = if all { 0 } else { count - 1 };
    let answer = |cell: usize| {
        // A frame has no level, no vector and no weight.
        let at = BlockAt {
            width,
            height,
            level: 0,
            refined: present,
            bx: cell % (width / 4),
            by: cell / (width / 4),
        };
        let given = [content as i128, seed.into(), 0, 0, 0];
        let found = Found {
            row: grid.rows[cell],
            col: grid.cols[cell],
            sad: grid.sads[cell],
            cost: sum(&grid),
        };
        line(Kind::Frame, &at, given, found)
    };
    (first..count).map(answer).collect()
}

pub fn frames() -> Vec<String> {
    let mut random = Random::new(SEED + FRAME_DRAWS);
    let mut lines = Vec::new();
    for (width, height) in SIDES {
        for content in EACH {
            for present in [false, true] {
                let seed = random.word() % SEEDS;
                lines.extend(frame(width, height, content, seed, present));
            }
        }
    }
    lines
}
