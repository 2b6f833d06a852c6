//! Grid files, and two grids compared, by plain loops of safe Rust; of files with every
//! test that the proved code makes.

use oracle::Grid;

const MARK: [u8; 2] = [0x4C, 0x47];

/// Writes a grid's file from the start of `file`: how many bytes, or a refusal.
pub fn write(width: usize, height: usize, grid: &Grid, file: &mut [u8]) -> Result<usize, u32> {
    let valid = |side: usize| side.is_multiple_of(8) && (8..=1_024).contains(&side);
    if !valid(width) || !valid(height) {
        return Err(1);
    }
    let (columns, down) = (width / 4, height / 4);
    let cells = columns * down;
    let Grid { rows, cols, sads } = grid;
    if rows.len() < cells || cols.len() < cells || sads.len() < cells {
        return Err(5);
    }
    let bytes = 4 + 10 * cells;
    if file.len() < bytes {
        return Err(13);
    }
    let (header, records) = file[..bytes].split_at_mut(4);
    header[..2].copy_from_slice(&MARK);
    header[2..].copy_from_slice(&[(columns - 1) as u8, (down - 1) as u8]);
    let grid = rows.iter().zip(cols).zip(sads);
    for (record, ((row, col), sad)) in records.chunks_exact_mut(10).zip(grid) {
        record[..2].copy_from_slice(&MARK);
        record[2..4].copy_from_slice(&row.to_le_bytes());
        record[4..6].copy_from_slice(&col.to_le_bytes());
        record[6..].copy_from_slice(&sad.to_le_bytes());
    }
    Ok(bytes)
}

/// Whether a record that may be cut off has no wrong byte in its mark.
fn marked(record: &[u8]) -> bool {
    record.iter().zip(&MARK).all(|(byte, mark)| byte == mark)
}

/// Reads a file into the first cells of `grid`: columns and rows, or a refusal.
pub fn read(file: &[u8], grid: &mut Grid) -> Result<(usize, usize), u32> {
    let (header, rest) = file.split_at(file.len().min(4));
    if !marked(header) {
        return Err(10);
    }
    let &[_, _, columns, down] = header else {
        return Err(11);
    };
    let (columns, down) = (usize::from(columns) + 1, usize::from(down) + 1);
    if !columns.is_multiple_of(2) || !down.is_multiple_of(2) {
        return Err(12);
    }
    let cells = columns * down;
    let Grid { rows, cols, sads } = grid;
    if rows.len() < cells || cols.len() < cells || sads.len() < cells {
        return Err(13);
    }
    // All is tested before a cell is written.
    let records = rest[..rest.len().min(10 * cells)].chunks_exact(10);
    let wrong = records.clone().any(|record| record[..2] != MARK);
    if wrong || !marked(records.remainder()) {
        return Err(10);
    }
    if rest.len() != 10 * cells {
        return Err(11);
    }
    let grid = rows.iter_mut().zip(cols).zip(sads);
    for (record, ((row, col), sad)) in records.zip(grid) {
        *row = i16::from_le_bytes([record[2], record[3]]);
        *col = i16::from_le_bytes([record[4], record[5]]);
        *sad = u32::from_le_bytes([record[6], record[7], record[8], record[9]]);
    }
    Ok((columns, down))
}

/// How many cells of two grids of one size differ, and the first that does, or how
/// many cells there are.
pub fn compare(first: &Grid, second: &Grid) -> (u64, u64) {
    let cells = first.sads.len();
    let (mut count, mut place) = (0, cells);
    for i in 0..cells {
        let same = first.rows[i] == second.rows[i]
            && first.cols[i] == second.cols[i]
            && first.sads[i] == second.sads[i];
        if !same {
            place = place.min(i);
            count += 1;
        }
    }
    (count, place as u64)
}
