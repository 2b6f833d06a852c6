//! Grid files, written from the words of the request that asks for them alone.

use crate::grid::Grid;

/// Every record starts with it.
pub const MARK: [u8; 2] = [0x4C, 0x47];

/// How many bytes the file of so many cells has.
pub const fn file_len(cells: usize) -> usize {
    4 + 10 * cells
}

/// The header of columns by rows cells, then a record for each cell of the grid.
pub fn records(columns: usize, rows: usize, grid: &Grid) -> Vec<u8> {
    let mut file = MARK.to_vec();
    file.extend([(columns - 1) as u8, (rows - 1) as u8]);
    for (row, col, sad) in grid.cells() {
        file.extend(MARK);
        file.extend(row.to_le_bytes());
        file.extend(col.to_le_bytes());
        file.extend(sad.to_le_bytes());
    }
    file
}

/// The file of a grid, or the number of the refusal where so many bytes are lent.
pub fn write(width: usize, height: usize, grid: &Grid, lent: usize) -> Result<Vec<u8>, u32> {
    let valid = |side: usize| side.is_multiple_of(8) && (8..=1_024).contains(&side);
    if !valid(width) || !valid(height) {
        return Err(1);
    }
    let (columns, rows) = (width / 4, height / 4);
    let Some(grid) = grid.first(columns * rows) else {
        return Err(5);
    };
    let file = records(columns, rows, &grid);
    if lent < file.len() {
        return Err(13);
    }
    Ok(file)
}

/// What is left of a file.
struct Bytes<'a>(std::slice::Iter<'a, u8>);

impl Bytes<'_> {
    fn take<const N: usize>(&mut self) -> Result<[u8; N], u32> {
        let mut taken = [0; N];
        for byte in &mut taken {
            *byte = *self.0.next().ok_or(11u32)?;
        }
        Ok(taken)
    }

    fn mark(&mut self) -> Result<(), u32> {
        for byte in MARK {
            if self.take()? != [byte] {
                return Err(10);
            }
        }
        Ok(())
    }
}

/// Columns and rows of a file that starts with these bytes, and how many it has, or
/// the number of the refusal.
pub fn peek(file: &[u8]) -> Result<(usize, usize, usize), u32> {
    let mut bytes = Bytes(file.iter());
    bytes.mark()?;
    let [columns, rows] = bytes.take()?.map(|less_one| usize::from(less_one) + 1);
    match columns.is_multiple_of(2) && rows.is_multiple_of(2) {
        true => Ok((columns, rows, file_len(columns * rows))),
        false => Err(12),
    }
}

/// Columns, rows and cells of a file, or the number of the refusal where the grid
/// lent has room for so many cells.
pub fn read(file: &[u8], room: usize) -> Result<(usize, usize, Grid), u32> {
    let mut bytes = Bytes(file.iter());
    bytes.mark()?;
    let [columns, rows] = bytes.take()?.map(|less_one| usize::from(less_one) + 1);
    if !columns.is_multiple_of(2) || !rows.is_multiple_of(2) {
        return Err(12);
    }
    if room < columns * rows {
        return Err(13);
    }
    let mut grid = Grid::default();
    for _ in 0..columns * rows {
        bytes.mark()?;
        grid.rows.push(i16::from_le_bytes(bytes.take()?));
        grid.cols.push(i16::from_le_bytes(bytes.take()?));
        grid.sads.push(u32::from_le_bytes(bytes.take()?));
    }
    if bytes.0.next().is_some() {
        return Err(11);
    }
    Ok((columns, rows, grid))
}
