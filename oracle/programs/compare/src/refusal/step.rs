//! The numbers of a superblock step: 1 to 5 and 8.

use cases::Random;
use oracle::Grid;

use super::{
    block::Asked,
    rules::{
        GridLens, LEVELS, SIDES, block_side, frame_is_valid, plane_is_short, shift_and_pad,
        superblocks,
    },
};
use crate::kind::Numbers;

/// What a caller asks for; nothing is known to be valid.
#[derive(Clone, Copy)]
pub struct AskedStep {
    pub width: usize,
    pub height: usize,
    pub level: usize,
    pub superblock: usize,
}

impl AskedStep {
    /// The names of `numbers`.
    pub const COLUMNS: [&'static str; 4] = ["width", "height", "level", "superblock"];

    pub fn numbers(&self) -> Vec<i128> {
        [self.width, self.height, self.level, self.superblock]
            .map(|n| n as i128)
            .to_vec()
    }

    pub fn take(numbers: &mut Numbers<'_>) -> Option<Self> {
        Some(AskedStep {
            width: numbers.take()?,
            height: numbers.take()?,
            level: numbers.take()?,
            superblock: numbers.take()?,
        })
    }

    /// Superblocks in a frame that there is.
    fn count(&self) -> usize {
        let (across, down) = superblocks(self.width, self.height);
        across * down
    }

    /// Makes one number wrong, or takes it to the edge of being so.
    pub fn spoil(&mut self, random: &mut Random) {
        match random.below(6) {
            0 => self.width = random.pick(&SIDES),
            1 => self.height = random.pick(&SIDES),
            2 => self.level = random.pick(&LEVELS),
            3 => self.level = random.pick(&[2, 3, 4]),
            _ => {
                let valid = frame_is_valid(self.width, self.height);
                let count = if valid { self.count() } else { 1 };
                let far = self.superblock.wrapping_add(1 << 32);
                let beyond = [count, count + 1, count + 7, far, usize::MAX];
                self.superblock = random.pick(&beyond);
            }
        }
    }

    /// Numbers 1, 2 and 3; 0 where none applies.
    pub fn refusal(&self) -> u32 {
        if !frame_is_valid(self.width, self.height) {
            return 1;
        }
        if block_side(self.level, false).is_none() {
            return 2;
        }
        if self.superblock >= self.count() {
            return 3;
        }
        0
    }

    /// The blocks that are refined, in raster order, where 1 to 3 do not refuse.
    pub fn refined(&self) -> Vec<Asked> {
        let Some(side) = block_side(self.level, true) else {
            return Vec::new();
        };
        let (across, _) = superblocks(self.width, self.height);
        let first = (self.superblock % across * 16, self.superblock / across * 16);
        let starts = |from: usize, cells: usize| (from..cells.min(from + 16)).step_by(side / 4);
        let mut blocks = Vec::new();
        for by in starts(first.1, self.height / 4) {
            for bx in starts(first.0, self.width / 4) {
                blocks.push(Asked {
                    width: self.width,
                    height: self.height,
                    level: self.level,
                    refined: 1,
                    bx,
                    by,
                });
            }
        }
        blocks
    }

    /// Numbers 1 to 5 and 8; planes are current and reference, each at shift 0, 1, 2.
    pub fn refusal_of_step(&self, lens: [usize; 6], grids: GridLens, cells: &Grid) -> u32 {
        let first = self.refusal();
        if first != 0 {
            return first;
        }
        let (width, height, (s, _)) = (self.width, self.height, shift_and_pad(self.level));
        let short = |len| plane_is_short(width, height, self.level, len);
        if short(lens[s]) || short(lens[3 + s]) {
            return 4;
        }
        if grids.are_short(width, height) {
            return 5;
        }
        let empty = |block: &Asked| {
            let first = block.by * (width / 4) + block.bx;
            block.window_is_empty([cells.rows[first], cells.cols[first]])
        };
        if self.refined().iter().any(empty) {
            return 8;
        }
        0
    }
}
