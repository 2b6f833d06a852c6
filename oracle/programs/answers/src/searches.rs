//! The cases of the searches and of the refinement.

use cases::{Random, WEIGHTS, refined_block, searched_block, stored_ends};
use oracle::{Grid, Search};

use crate::lists::{Kind, SEED, line, on_planes};

const CASES: usize = 40;

/// The contents in turn, by their numbers: those where costs tie and those that
/// moved come oftener, since noise alone hides a wrong order or a wrong tie.
const CONTENTS: [usize; 8] = [5, 4, 0, 5, 1, 4, 3, 2];

/// Added to the seed: draws that also tell the published sixteen points from
/// mended ones, and a shift of the stored vector from a division.
const MULTI_HEXAGON_DRAWS: u64 = 6;
const REFINE_DRAWS: u64 = 3;

/// At an end, anywhere, or (oftenest) within eight pixels of none at all.
fn component(random: &mut Random, case: usize, (min, max): (isize, isize)) -> i16 {
    let value = match case % 7 {
        0 => min,
        1 => max,
        2 | 3 => random.between(min, max),
        _ => random.between(min.max(-64), max.min(64)),
    };
    value as i16
}

fn weight(random: &mut Random, case: usize) -> u32 {
    let any = random.word() as u32;
    WEIGHTS.get(case % 5).copied().unwrap_or(any)
}

pub fn search(search: Search) -> Vec<String> {
    let (kind, draws) = match search {
        Search::Diamond => (Kind::Diamond, 0),
        Search::Hexagon => (Kind::Hexagon, 1),
        Search::UnevenMultiHexagon => (Kind::MultiHexagon, MULTI_HEXAGON_DRAWS),
    };
    let mut random = Random::new(SEED + draws);
    let answer = |case| {
        let (at, content, seed, oracle) = on_planes(&mut random, case, &CONTENTS, searched_block);
        let range = at.range();
        let row = component(&mut random, case, (range.mvy_min, range.mvy_max));
        // The ends of the columns come in another order, so that each corner is met.
        let col = component(&mut random, case / 2, (range.mvx_min, range.mvx_max));
        let weight = weight(&mut random, case);
        let given = [
            content as i128,
            seed.into(),
            row.into(),
            col.into(),
            weight.into(),
        ];
        let found = oracle.search(search, &at, row, col, weight);
        line(kind, &at, given, found)
    };
    (0..CASES).map(answer).collect()
}

pub fn refine() -> Vec<String> {
    let mut random = Random::new(SEED + REFINE_DRAWS);
    let answer = |case| {
        let (at, content, seed, oracle) = on_planes(&mut random, case, &CONTENTS, refined_block);
        let (range, s) = (at.range(), at.ssdec());
        let row_ends = stored_ends(range.mvy_min, range.mvy_max, s);
        let col_ends = stored_ends(range.mvx_min, range.mvx_max, s);
        let row = component(&mut random, case, row_ends);
        let col = component(&mut random, case / 2, col_ends);
        let weight = weight(&mut random, case);
        let given = [
            content as i128,
            seed.into(),
            row.into(),
            col.into(),
            weight.into(),
        ];
        let cells = at.width / 4 * (at.height / 4);
        let grid = Grid {
            rows: vec![row; cells],
            cols: vec![col; cells],
            sads: vec![0; cells],
        };
        let found = oracle.refinement(&at, &grid, weight);
        line(Kind::Refine, &at, given, found)
    };
    (0..CASES).map(answer).collect()
}
