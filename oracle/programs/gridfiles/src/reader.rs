//! The 40 bytes of a reader.

use lockdapple_sys::Reader;

use crate::case::Outcome;

/// The 40 bytes of code, columns, rows and cells and of a record begun, with 0 wherever
/// nothing is in use.
pub fn laid_out([code, columns, rows, cells]: [u32; 4], begun: &[u8]) -> Reader {
    let mut part = [0; 16];
    part[..begun.len()].copy_from_slice(begun);
    Reader {
        code,
        columns,
        rows,
        cells,
        held: begun.len() as u32,
        part,
        spare: 0,
    }
}

/// The 16 bytes as two numbers.
pub fn halves(part: [u8; 16]) -> [u64; 2] {
    let all = u128::from_le_bytes(part);
    [all as u64, (all >> 64) as u64]
}

impl Outcome {
    /// Adds all 40 bytes.
    pub fn add_reader(&mut self, should: &Reader, is: &Reader) {
        let answers = &mut self.answers;
        answers.add("code", should.code, is.code);
        answers.add("columns", should.columns, is.columns);
        answers.add("rows", should.rows, is.rows);
        answers.add("cells", should.cells, is.cells);
        answers.add("held", should.held, is.held);
        let (part, of) = (halves(should.part), halves(is.part));
        answers.add("part_0_to_7", part[0], of[0]);
        answers.add("part_8_to_15", part[1], of[1]);
        answers.add("spare", should.spare, is.spare);
    }
}
