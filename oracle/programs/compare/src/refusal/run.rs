//! The numbers of a frame run: 1, 4, 5, 6 and 7.

use cases::Random;

use super::{
    list::refusal_of_list,
    rules::{GridLens, SIDES, frame_is_valid, plane_is_short},
};
use crate::kind::Numbers;

/// What a caller asks for; nothing is known to be valid.
#[derive(Clone, Copy)]
pub struct AskedRun {
    pub width: usize,
    pub height: usize,
}

impl AskedRun {
    /// The names of `numbers`.
    pub const COLUMNS: [&'static str; 2] = ["width", "height"];

    pub fn numbers(&self) -> Vec<i128> {
        vec![self.width as i128, self.height as i128]
    }

    pub fn take(numbers: &mut Numbers<'_>) -> Option<Self> {
        Some(AskedRun {
            width: numbers.take()?,
            height: numbers.take()?,
        })
    }

    /// Makes one side wrong.
    pub fn spoil(&mut self, random: &mut Random) {
        let side = random.pick(&SIDES);
        match random.below(2) {
            0 => self.width = side,
            _ => self.height = side,
        }
    }

    /// Numbers 1 and 4 to 7; planes are current and reference, each at shift 0, 1, 2.
    pub fn refusal_of_run(&self, lens: [usize; 6], grids: GridLens, list: &[u16]) -> u32 {
        let (width, height) = (self.width, self.height);
        if !frame_is_valid(width, height) {
            return 1;
        }
        let levels = [2, 3, 4, 2, 3, 4];
        let mut planes = levels.into_iter().zip(lens);
        if planes.any(|(level, len)| plane_is_short(width, height, level, len)) {
            return 4;
        }
        if grids.are_short(width, height) {
            return 5;
        }
        refusal_of_list(width, height, list)
    }
}
