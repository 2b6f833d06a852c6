//! What the numbers of several calls have in common.

/// Sides that no frame has.
pub const SIDES: [usize; 9] = [
    0,
    4,
    7,
    12,
    1_028,
    1_032,
    (1 << 32) + 64,
    usize::MAX - 7,
    usize::MAX,
];

/// Levels that there are not.
pub const LEVELS: [usize; 6] = [0, 1, 5, 6, (1 << 32) + 2, usize::MAX];

/// Number 1.
pub fn frame_is_valid(width: usize, height: usize) -> bool {
    let valid = |side: usize| side.is_multiple_of(8) && (8..=1_024).contains(&side);
    valid(width) && valid(height)
}

/// The side of an uncropped block, where the level has such blocks (number 2).
pub fn block_side(level: usize, refined: bool) -> Option<usize> {
    match (level, refined) {
        (4, false) => Some(64),
        (3, false) => Some(32),
        (2, false) => Some(16),
        (3, true) => Some(64),
        (2, true) => Some(32),
        _ => None,
    }
}

/// Superblocks across and down (number 3).
pub fn superblocks(width: usize, height: usize) -> (usize, usize) {
    (width.div_ceil(64), height.div_ceil(64))
}

/// Shift and pad of a level that there is.
pub fn shift_and_pad(level: usize) -> (usize, usize) {
    match level {
        4 => (2, 20),
        3 => (1, 40),
        _ => (0, 48),
    }
}

/// Number 4 of a plane of a level.
pub fn plane_is_short(width: usize, height: usize, level: usize, len: usize) -> bool {
    let (s, p) = shift_and_pad(level);
    len < ((width >> s) + 2 * p) * ((height >> s) + 2 * p)
}

/// Number 5 of a grid, by the lengths of its rows, columns and SADs.
pub fn grid_is_short(width: usize, height: usize, lens: [usize; 3]) -> bool {
    lens.iter().any(|&len| len < (width / 4) * (height / 4))
}

/// The lengths of the two grids of a call; the previous one is absent if 0.
#[derive(Clone, Copy)]
pub struct GridLens {
    pub present: usize,
    pub previous: [usize; 3],
    pub current: [usize; 3],
}

impl GridLens {
    /// Number 5.
    pub fn are_short(&self, width: usize, height: usize) -> bool {
        let short = |lens| grid_is_short(width, height, lens);
        short(self.current) || (self.present != 0 && short(self.previous))
    }
}
