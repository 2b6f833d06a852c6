//! The rows of grid files: the largest grid written, and its file read.

use std::hint::black_box;

use cases::cells;
use lockdapple_sys as sys;
use oracle::Grid;

use crate::{
    clock::timed,
    lent::{lent, lent_mut, zeros},
    loops,
    rounds::{Times, rounds},
};

/// The names of the columns, in their order.
pub const NAMES: [&str; 3] = ["1 rust loop", "2 copy", "3 ours"];

/// A row's name and its times; or, where the columns leave different bytes or cells,
/// what they differ on.
pub type Row = (&'static str, fn() -> Result<Times, String>);

pub const ROWS: [Row; 2] = [("grid write", write_times), ("grid read", read_times)];

/// A side in pixels, and the same in cells.
const SIDE: usize = 1_024;
pub const ACROSS: usize = SIDE / 4;
const BYTES: usize = 4 + 10 * ACROSS * ACROSS;

/// As `loops::write`.
fn write(width: usize, height: usize, grid: &Grid, file: &mut [u8]) -> Result<usize, u32> {
    let written = sys::grid_write(width, height, lent(grid), file);
    match written.code {
        0 => Ok(written.bytes as usize),
        code => Err(code),
    }
}

/// As `loops::read`.
pub fn read(file: &[u8], grid: &mut Grid) -> Result<(usize, usize), u32> {
    let shape = sys::grid_read(file, lent_mut(grid));
    match shape.code {
        0 => Ok((shape.columns as usize, shape.rows as usize)),
        code => Err(code),
    }
}

/// Nanoseconds of one of `turns` calls, the first on what was `before`; or what is
/// wrong where the last leaves something else than `after`.
pub fn piece<T: Clone + PartialEq>(
    before: &T,
    after: &T,
    turns: usize,
    call: impl Fn(&mut T) -> bool,
) -> Result<f64, String> {
    let mut left = before.clone();
    let time = timed(turns, || assert!(call(black_box(&mut left))));
    match left == *after {
        true => Ok(time),
        false => Err("the largest grid file".into()),
    }
}

pub fn copy(file: &Vec<u8>, turns: usize) -> Result<f64, String> {
    piece(&vec![0; BYTES], file, turns, |to| {
        to.copy_from_slice(black_box(file));
        true
    })
}

/// A grid, and its file as the loop writes it.
pub fn kept() -> (Grid, Vec<u8>) {
    let (grid, mut file) = (cells(0, 1, SIDE, SIDE), vec![0; BYTES]);
    assert_eq!(loops::write(SIDE, SIDE, &grid, &mut file), Ok(BYTES));
    (grid, file)
}

fn write_times() -> Result<Times, String> {
    let ((grid, file), blank) = (kept(), vec![0; BYTES]);
    let column = |turns, write: fn(usize, usize, &Grid, &mut [u8]) -> _| {
        let call = |to: &mut Vec<u8>| write(SIDE, SIDE, &grid, to) == Ok(BYTES);
        piece(&blank, &file, turns, call)
    };
    rounds(&|[first, second, third]| {
        let (rust, copied) = (column(first, loops::write)?, copy(&file, second)?);
        Ok([rust, copied, column(third, write)?])
    })
}

fn read_times() -> Result<Times, String> {
    let ((grid, file), blank) = (kept(), zeros(ACROSS * ACROSS));
    let column = |turns, read: fn(&[u8], &mut Grid) -> _| {
        let call = |to: &mut Grid| read(&file, to) == Ok((ACROSS, ACROSS));
        piece(&blank, &grid, turns, call)
    };
    rounds(&|[first, second, third]| {
        let (rust, copied) = (column(first, loops::read)?, copy(&file, second)?);
        Ok([rust, copied, column(third, read)?])
    })
}

/// Small files, whole and with one thing wrong.
pub fn small() -> Vec<Vec<u8>> {
    let grid = cells(0, 2, 8, 8);
    let mut whole = vec![0; 60];
    assert_eq!(loops::write(8, 8, &grid, &mut whole), Ok(44));
    let changed = (0..44).map(|at| {
        let mut file = whole[..44].to_vec();
        file[at] ^= 3;
        file
    });
    let cut = (0..60).map(|len| whole[..len].to_vec());
    cut.chain(changed).collect()
}

/// The cells that are lent for one small file after the other.
pub fn rooms() -> impl Iterator<Item = usize> {
    [3, 4, 8, 8, 8].into_iter().cycle()
}

/// How many small files the loop and the proved code answer alike.
pub fn check() -> Result<usize, String> {
    let files = small();
    for (file, room) in files.iter().zip(rooms()) {
        let mut grids = [zeros(room), zeros(room)];
        let [one, other] = &mut grids;
        let answers = [loops::read(file, one), read(file, other)];
        if answers[0] != answers[1] || grids[0] != grids[1] {
            return Err("a small grid file".into());
        }
    }
    Ok(files.len())
}
