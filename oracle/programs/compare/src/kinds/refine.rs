//! One refinement, and the refusals 1 to 5 and 8. The vector of a call is the
//! stored one.

use cases::{CELL_SEEDS, Random, cells, mostly_between, refined_block, stored_ends};

use crate::{
    answers,
    call::{Call, lengths},
    calls,
    grid::LentGrid,
    kind::{Kind, Numbers, Outcome},
    scenes::{Scenes, Setting},
};

pub struct Refine;

/// The grid of a call: its vector in the first cell of its block, anything in
/// the others.
fn grid(numbers: &mut Numbers<'_>, call: &Call) -> Option<LentGrid> {
    let lens = [numbers.take()?, numbers.take()?, numbers.take()?];
    let setting = call.setting();
    let mut grid = cells(0, numbers.take()?, setting.width, setting.height);
    if call.asked.refusal() == 0 {
        let first = call.asked.by * (call.asked.width / 4) + call.asked.bx;
        (grid.rows[first], grid.cols[first]) = (call.row, call.col);
    }
    Some(LentGrid::new(grid, lens, call.guarded).protected())
}

impl Kind for Refine {
    fn name(&self) -> &'static str {
        "refine"
    }

    fn columns(&self) -> Vec<&'static str> {
        let grid = ["rows_len", "cols_len", "sads_len", "cells_seed"];
        [&Call::columns()[..], &grid].concat()
    }

    fn draw(&self, random: &mut Random, setting: &Setting) -> Vec<i128> {
        let at = refined_block(random, setting.width, setting.height);
        let (range, s) = (at.range(), at.ssdec());
        let mut stored = |min, max| {
            let (first, last) = stored_ends(min, max, s);
            mostly_between(random, first, last)
        };
        let col = stored(range.mvx_min, range.mvx_max);
        let row = stored(range.mvy_min, range.mvy_max);
        let mut call = Call::new(random, setting, at, row, col).vary(random);
        // A refinement is not asked for any other block.
        call.asked.refined = 1;
        let lent = call.setting();
        let full = lent.width / 4 * (lent.height / 4);
        let lens: [usize; 3] = lengths(random, call.guarded, full);
        let mut numbers = call.numbers();
        numbers.extend(lens.map(|len| len as i128));
        numbers.push((random.word() % CELL_SEEDS).into());
        numbers
    }

    fn run(&self, numbers: &mut Numbers<'_>, scenes: &mut Scenes) -> Option<Outcome> {
        let call = Call::take(numbers)?;
        if call.asked.refined != 1 {
            return None;
        }
        let grid = grid(numbers, &call)?;
        let stored = [call.row, call.col];
        let refusal = call
            .asked
            .refusal_of_refinement(call.lens, grid.lens, stored);
        let scene = scenes.get(call.setting());
        let block = (refusal == 0).then(|| call.asked.block());
        let found = block.map(|at| scene.oracle.refinement(&at, &grid.cells, call.weight));
        let proved = calls::refine(&call, scene, &grid)?;
        let answers = answers::found(refusal, found, proved);
        Some(call.outcome(answers, refusal, block))
    }
}
