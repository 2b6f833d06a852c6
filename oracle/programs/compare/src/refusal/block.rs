//! The numbers of a call on one block: 1 to 5, 8 and 9.

use cases::Random;
use oracle::BlockAt;

use super::rules::{
    GridLens, LEVELS, SIDES, block_side, frame_is_valid, grid_is_short, plane_is_short,
    shift_and_pad,
};
use crate::kind::Numbers;

/// What a caller asks for; nothing is known to be valid.
#[derive(Clone, Copy)]
pub struct Asked {
    pub width: usize,
    pub height: usize,
    pub level: usize,
    pub refined: usize,
    pub bx: usize,
    pub by: usize,
}

impl From<BlockAt> for Asked {
    fn from(at: BlockAt) -> Self {
        Asked {
            width: at.width,
            height: at.height,
            level: at.level,
            refined: at.refined.into(),
            bx: at.bx,
            by: at.by,
        }
    }
}

impl Asked {
    /// The names of `numbers`.
    pub const COLUMNS: [&'static str; 6] = ["width", "height", "level", "refined", "bx", "by"];

    pub fn numbers(&self) -> Vec<i128> {
        [
            self.width,
            self.height,
            self.level,
            self.refined,
            self.bx,
            self.by,
        ]
        .map(|n| n as i128)
        .to_vec()
    }

    pub fn take(numbers: &mut Numbers<'_>) -> Option<Self> {
        Some(Asked {
            width: numbers.take()?,
            height: numbers.take()?,
            level: numbers.take()?,
            refined: numbers.take()?,
            bx: numbers.take()?,
            by: numbers.take()?,
        })
    }

    /// The block, where nothing is refused.
    pub fn block(&self) -> BlockAt {
        BlockAt {
            width: self.width,
            height: self.height,
            level: self.level,
            refined: self.refined != 0,
            bx: self.bx,
            by: self.by,
        }
    }

    /// Makes one number wrong, or takes it to the edge of being so.
    pub fn spoil(&mut self, random: &mut Random) {
        let cell = |random: &mut Random, cell: usize, side: usize| {
            let (cells, away) = (side / 4, random.below(16));
            let beyond = [cells, cells.next_multiple_of(16), 1 << 62, usize::MAX];
            let near = [1, 2, 4, away, 1 << 32].map(|by| cell.wrapping_add(by));
            match random.below(3) {
                0 => random.pick(&beyond),
                1 => random.pick(&near),
                _ => cells.saturating_sub(1),
            }
        };
        match random.below(8) {
            0 => self.width = random.pick(&SIDES),
            1 => self.height = random.pick(&SIDES),
            2 => self.level = random.pick(&LEVELS),
            3 => (self.level, self.refined) = (4, random.pick(&[1, 2, usize::MAX])),
            4 => self.refined = random.pick(&[0, 1, 2, 1 << 32, usize::MAX]),
            5 => self.level = random.pick(&[2, 3, 4]),
            6 => self.bx = cell(random, self.bx, self.width),
            _ => self.by = cell(random, self.by, self.height),
        }
    }

    fn block_side(&self) -> Option<usize> {
        block_side(self.level, self.refined != 0)
    }

    /// Numbers 1, 2 and 3; 0 where none applies.
    pub fn refusal(&self) -> u32 {
        if !frame_is_valid(self.width, self.height) {
            return 1;
        }
        let Some(block) = self.block_side() else {
            return 2;
        };
        let starts = |cell: usize, side: usize| cell < side / 4 && (4 * cell).is_multiple_of(block);
        if !starts(self.bx, self.width) || !starts(self.by, self.height) {
            return 3;
        }
        0
    }

    /// Numbers 1 to 4 of a call that is lent the two planes of its level.
    pub fn refusal_with_planes(&self, lens: [usize; 2]) -> u32 {
        let first = self.refusal();
        if first != 0 {
            return first;
        }
        let short = |&len: &usize| plane_is_short(self.width, self.height, self.level, len);
        if lens.iter().any(short) {
            return 4;
        }
        0
    }

    /// The ends of rows and of columns, of a call that 1 to 3 do not refuse.
    fn ends(&self) -> [(i64, i64); 2] {
        let (block, (s, _)) = (self.block_side().unwrap() as i64, shift_and_pad(self.level));
        [(self.by, self.height), (self.bx, self.width)].map(|(cell, side)| {
            let (cell, side) = (cell as i64, side as i64);
            let cropped = block.min(side - 4 * cell);
            let min = -32 * cell - 128 - 8 * cropped;
            let max = 32 * (side / 4 - cell) - 8 * cropped + 128 + 8 * cropped;
            (min.max(-16_383) >> s, max.min(16_383) >> s)
        })
    }

    /// Numbers 1 to 4 and 9 of a single search.
    pub fn refusal_of_search(&self, lens: [usize; 2], row: i16, col: i16) -> u32 {
        let first = self.refusal_with_planes(lens);
        if first != 0 {
            return first;
        }
        let outside = |(v, (min, max)): (i16, (i64, i64))| i64::from(v) < min || i64::from(v) > max;
        if [row, col].into_iter().zip(self.ends()).any(outside) {
            return 9;
        }
        0
    }

    /// Numbers 1, 2, 3 and 5 of the predictors.
    pub fn refusal_of_predictors(&self, lens: GridLens) -> u32 {
        let first = self.refusal();
        if first != 0 {
            return first;
        }
        if lens.are_short(self.width, self.height) {
            return 5;
        }
        0
    }

    /// Whether the window round a stored row and column is empty, where 1 to 3
    /// do not refuse.
    pub fn window_is_empty(&self, stored: [i16; 2]) -> bool {
        let (s, _) = shift_and_pad(self.level);
        let empty = |(v, (min, max)): (i16, (i64, i64))| {
            let m = (i64::from(v) >> s) / 8;
            (m - 1).max(min / 8) > (m + 2).min(max / 8)
        };
        stored.into_iter().zip(self.ends()).any(empty)
    }

    /// Numbers 1 to 5 and 8 of one refinement of a stored row and column.
    pub fn refusal_of_refinement(
        &self,
        lens: [usize; 2],
        grid_lens: [usize; 3],
        stored: [i16; 2],
    ) -> u32 {
        let first = self.refusal_with_planes(lens);
        if first != 0 {
            return first;
        }
        if grid_is_short(self.width, self.height, grid_lens) {
            return 5;
        }
        if self.window_is_empty(stored) {
            return 8;
        }
        0
    }
}
