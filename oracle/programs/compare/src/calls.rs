//! The calls of the proved code; None where what is lent cannot be so long.

use lockdapple_sys::{self as sys, Block, Ends, Found, Previous, Step, Subsets, Vector};

use crate::{
    call::Call,
    grid::LentGrid,
    grids::Grids,
    lend::lent,
    planes::Planes,
    refusal::{Asked, AskedRun, AskedStep},
    scenes::Scene,
};

fn block(asked: &Asked) -> Block {
    Block {
        width: asked.width,
        height: asked.height,
        level: asked.level,
        bx: asked.bx,
        by: asked.by,
    }
}

fn vector(call: &Call) -> Vector {
    let (row, col) = (call.row, call.col);
    Vector { row, col }
}

fn previous(present: usize, grid: &LentGrid) -> Option<Previous<'_>> {
    let grid = grid.lend()?;
    Some(Previous { present, grid })
}

pub fn range(asked: &Asked) -> Ends {
    sys::range(block(asked), asked.refined)
}

pub fn candidate(call: &Call, scene: &Scene) -> Option<Found> {
    let [cur, reference] = call.planes(scene)?;
    let (block, refined) = (block(&call.asked), call.asked.refined);
    Some(sys::candidate(
        block,
        refined,
        cur,
        reference,
        vector(call),
        call.weight,
    ))
}

/// One of the three searches.
pub type Search = fn(Block, &[u8], &[u8], Vector, u32) -> Found;

pub fn search(search: Search, call: &Call, scene: &Scene) -> Option<Found> {
    let [cur, reference] = call.planes(scene)?;
    let block = block(&call.asked);
    Some(search(block, cur, reference, vector(call), call.weight))
}

pub fn refine(call: &Call, scene: &Scene, grid: &LentGrid) -> Option<Found> {
    let [cur, reference] = call.planes(scene)?;
    let (block, grid) = (block(&call.asked), grid.lend()?);
    Some(sys::refine(block, cur, reference, grid, call.weight))
}

pub fn predictors(asked: &Asked, grids: &Grids) -> Option<Subsets> {
    let previous = previous(grids.present, &grids.previous)?;
    let grid = grids.current.lend()?;
    Some(sys::predictors(block(asked), previous, grid))
}

/// A superblock step: its code.
pub fn step(asked: &AskedStep, planes: &Planes, scene: &Scene, grids: &mut Grids) -> Option<u32> {
    let step = Step {
        width: asked.width,
        height: asked.height,
        level: asked.level,
        superblock: asked.superblock,
    };
    let [cur, reference] = planes.lend(scene)?;
    let previous = previous(grids.present, &grids.previous)?;
    let grid = grids.current.lend_mut()?;
    Some(sys::superblock_step(step, cur, reference, previous, grid))
}

/// A frame run: its code.
pub fn run(
    asked: &AskedRun,
    [cur, reference]: [sys::Planes<'_>; 2],
    guarded: bool,
    grids: &mut Grids,
    list: &[u16],
) -> Option<u32> {
    let (width, height) = (asked.width, asked.height);
    let mut list = lent(list, guarded);
    list.protect();
    let previous = previous(grids.present, &grids.previous)?;
    let grid = grids.current.lend_mut()?;
    Some(sys::frame_run(
        width,
        height,
        cur,
        reference,
        previous,
        list.lend(),
        grid,
    ))
}
