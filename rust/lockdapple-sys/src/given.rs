//! What a call is given, where it is more than one number or slice.

/// A block of a frame, named by its first cell.
#[derive(Clone, Copy)]
pub struct Block {
    pub width: usize,
    pub height: usize,
    pub level: usize,
    pub bx: usize,
    pub by: usize,
}

/// A superblock of a frame, and a level.
#[derive(Clone, Copy)]
pub struct Step {
    pub width: usize,
    pub height: usize,
    pub level: usize,
    pub superblock: usize,
}

/// A frame's planes, those of levels 2, 3 and 4.
#[derive(Clone, Copy)]
pub struct Planes<'a> {
    pub full: &'a [u8],
    pub half: &'a [u8],
    pub quarter: &'a [u8],
}

/// The cells of a grid, row by row.
#[derive(Clone, Copy)]
pub struct Grid<'a> {
    pub rows: &'a [i16],
    pub cols: &'a [i16],
    pub sads: &'a [u32],
}

/// The cells of a grid that is written.
pub struct GridMut<'a> {
    pub rows: &'a mut [i16],
    pub cols: &'a mut [i16],
    pub sads: &'a mut [u32],
}

/// With `present` 0 there is no previous grid, and what is lent for it is not read.
#[derive(Clone, Copy)]
pub struct Previous<'a> {
    pub present: usize,
    pub grid: Grid<'a>,
}
