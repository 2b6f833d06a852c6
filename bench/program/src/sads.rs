//! What a SAD of 16 by 16 bytes takes.

use std::hint::black_box;

use cases::Frame;
use oracle::{BlockAt, PAD};

use crate::{
    clock::Summary,
    column::{Vector, summed},
    columns::columns,
    frames::{Content, frame},
    load::load,
    rounds::ROUNDS,
};

pub const SIDE: usize = 256;
const STRIDE: usize = SIDE + 2 * PAD[0];

/// Times that all vectors are gone through for each block.
const TURNS: usize = 200;

/// Rows past the range of every block, which are asked last.
const OUT: i16 = 8 * 1_000;

/// Blocks away from the edge.
pub fn blocks() -> impl Iterator<Item = BlockAt> {
    (0..16).map(|i| BlockAt {
        width: SIDE,
        height: SIDE,
        level: 2,
        refined: false,
        bx: 8 + 12 * (i % 4),
        by: 8 + 12 * (i / 4),
    })
}

/// Whole pixels in eighths, so far apart that the reference blocks lie in the lines
/// of the cache in many ways.
fn vectors(row: i16) -> Vec<Vector> {
    (0..64)
        .map(|i| (row + 8 * (3 * (i / 8) - 11), 8 * (3 * (i % 8) - 11)))
        .collect()
}

/// The mean over the blocks, and the sum of each.
fn over_blocks<S>(on_block: impl Fn(&BlockAt) -> Option<(f64, S)>) -> Option<(f64, Vec<S>)> {
    let each: Option<Vec<_>> = blocks().map(|at| on_block(black_box(&at))).collect();
    let (times, sums): (Vec<f64>, Vec<S>) = each?.into_iter().unzip();
    Some((times.iter().sum::<f64>() / times.len() as f64, sums))
}

fn loads(frame: &Frame, at: &BlockAt, vectors: &[Vector]) -> (f64, u32) {
    let [[cur, ..], [reference, ..]] = &frame.planes;
    let place = |cell: usize, eighths: i16| 4 * cell as isize + isize::from(eighths / 8);
    let start = |(row, col): Vector| {
        let (y, x) = (place(at.by, row), place(at.bx, col));
        (y as usize + PAD[0]) * STRIDE + x as usize + PAD[0]
    };
    let org = &cur[start((0, 0))..];
    let references: Vec<_> = vectors.iter().map(|&v| &reference[start(v)..]).collect();
    let one = |reference: &&[u8]| load(black_box(org), reference, STRIDE);
    summed(vectors.len(), TURNS, || {
        references.iter().map(one).fold(0, u32::wrapping_add)
    })
}

/// The rounds of each column.
type Line = [Vec<f64>; 3];

/// A candidate in range less one out of it, the kernel alone, and both blocks loaded,
/// which is of no column and stands in the first; no rounds where none can be had.
fn lines(frame: &Frame) -> Result<[Line; 3], String> {
    let columns = columns(frame);
    let (inside, outside) = (&vectors(0)[..], &vectors(OUT)[..]);
    let [mut candidate, mut kernel, mut loaded] = [(); 3].map(|()| Line::default());
    for _ in 0..ROUNDS {
        let mut costs = Vec::new();
        for (i, column) in columns.iter().enumerate() {
            let timed = |vectors| over_blocks(|at| Some(column.costs(at, vectors, TURNS)));
            let (time, sums) = timed(inside).unwrap();
            let (less, _) = timed(outside).unwrap();
            candidate[i].push(time - less);
            costs.push(sums);
            let alone = over_blocks(|at| column.sads(at, inside, TURNS));
            kernel[i].extend(alone.map(|(time, _)| time));
        }
        if costs.iter().any(|sums| *sums != costs[0]) {
            return Err("the costs of candidates".into());
        }
        let alone = over_blocks(|at| Some(loads(frame, at, inside)));
        loaded[0].extend(black_box(alone).map(|(time, _)| time));
    }
    Ok([candidate, kernel, loaded])
}

/// A line of the table: its name, and the columns that there are.
pub type Sads = (&'static str, [Option<Summary>; 3]);

pub fn sads() -> Result<[Sads; 3], String> {
    let [candidate, kernel, loaded] = lines(&frame(Content::Noise, SIDE, SIDE))?
        .map(|line| line.map(|rounds| (!rounds.is_empty()).then(|| Summary::of(rounds))));
    Ok([
        ("candidate in less out", candidate),
        ("kernel alone", kernel),
        ("both blocks loaded", loaded),
    ])
}
