//! The rows of a grid file that comes in fragments: the largest one, taken in by a
//! reader, beside the same file read whole.

use lockdapple_sys::{Reader, reader_end, reader_new, reader_take};
use oracle::Grid;

use crate::{
    files::{ACROSS, kept, piece, read, rooms, small},
    lent::{lent_mut, zeros},
    rounds::{Times, rounds},
};

/// The names of the columns, in their order.
pub const NAMES: [&str; 2] = ["1 read whole", "2 ours"];

/// A row's name and the bytes of a fragment.
pub type Row = (&'static str, usize);

pub const ROWS: [Row; 3] = [
    ("grid fragments 1", 1),
    ("grid fragments 64", 64),
    ("grid fragments 4096", 4_096),
];

/// The last state of a file in fragments of so many bytes, from a new reader to an end
/// call.
fn read_in(bytes: usize, file: &[u8], grid: &mut Grid) -> Reader {
    let mut reader = reader_new();
    for fragment in file.chunks(bytes) {
        reader = reader_take(reader, fragment, lent_mut(grid));
    }
    reader_end(reader)
}

/// The state after a whole file.
fn done(columns: usize, rows: usize) -> Reader {
    Reader {
        code: 0,
        columns: columns as u32,
        rows: rows as u32,
        cells: (columns * rows) as u32,
        held: 0,
        part: [0; 16],
        spare: 0,
    }
}

/// The times of fragments of so many bytes; or, where the columns leave different
/// cells, what they differ on.
pub fn times(bytes: usize) -> Result<Times<2>, String> {
    let ((grid, file), blank) = (kept(), zeros(ACROSS * ACROSS));
    let whole = |to: &mut Grid| read(&file, to) == Ok((ACROSS, ACROSS));
    let fragments = |to: &mut Grid| read_in(bytes, &file, to) == done(ACROSS, ACROSS);
    rounds(&|[first, second]| {
        let one = piece(&blank, &grid, first, whole)?;
        Ok([one, piece(&blank, &grid, second, fragments)?])
    })
}

/// Asks that a small file in fragments is answered as the file read whole: by the
/// same number, and where that is 0 with the same state and cells.
pub fn check() -> Result<(), String> {
    for (file, room) in small().iter().zip(rooms()) {
        for bytes in [1, 3, 7, 64] {
            let mut grids = [zeros(room), zeros(room)];
            let [one, other] = &mut grids;
            let (whole, last) = (read(file, one), read_in(bytes, file, other));
            let alike = match whole {
                Ok((columns, rows)) => last == done(columns, rows) && grids[0] == grids[1],
                Err(code) => last.code == code,
            };
            if !alike {
                return Err("a small grid file in fragments".into());
            }
        }
    }
    Ok(())
}
