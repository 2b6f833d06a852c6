//! The judge of states that no call gave back, written from the words of the request
//! and those that docs/DECISIONS.md has on them: each is taken for what it says.

use std::{iter::zip, mem::take};

use lockdapple_sys::Reader;

use crate::{grid::Grid, judge::MARK, reader::laid_out};

/// What a reader's 40 bytes say.
struct Told {
    code: u32,
    columns: u32,
    rows: u32,
    cells: u32,
    /// The bytes of the record that comes next; none after a refusal.
    part: Vec<u8>,
}

impl Told {
    fn of(reader: &Reader) -> Self {
        let most = if reader.columns == 0 { 3 } else { 9 };
        let told = Told {
            code: reader.code,
            columns: reader.columns,
            rows: reader.rows,
            cells: reader.cells,
            part: reader.part[..reader.held.min(most) as usize].to_vec(),
        };
        match told.code {
            0 if told.columns > 256 || told.rows > 256 => told.refused(12),
            0 => told,
            code => told.refused(code),
        }
    }

    fn refused(self, code: u32) -> Self {
        Told {
            code,
            part: Vec::new(),
            ..self
        }
    }

    /// The cells that the header said.
    fn count(&self) -> usize {
        self.columns as usize * self.rows as usize
    }

    fn has_all(&self) -> bool {
        self.columns != 0 && self.count() <= self.cells as usize
    }

    /// Goes on with the bytes of one record, or as many as have come of it.
    fn go_on(mut self, come: &mut &[u8], grid: &mut Grid) -> Self {
        if self.has_all() {
            return self.refused(11);
        }
        let (len, held) = (if self.columns == 0 { 4 } else { 10 }, self.part.len());
        let (bytes, rest) = come.split_at(come.len().min(len - held));
        *come = rest;
        self.part.extend(bytes);
        // What was held is not looked at again.
        let mut marked = zip(&self.part, MARK).skip(held);
        if marked.any(|(byte, mark)| *byte != mark) {
            return self.refused(10);
        }
        if self.part.len() < len {
            return self;
        }
        let record = take(&mut self.part);
        if let [_, _, columns, rows] = record[..] {
            [self.columns, self.rows] = [columns, rows].map(|less_one| u32::from(less_one) + 1);
            self.cells = 0;
            if !self.columns.is_multiple_of(2) || !self.rows.is_multiple_of(2) {
                return self.refused(12);
            }
            if grid.room() < self.count() {
                return self.refused(13);
            }
            return self;
        }
        let at = self.cells as usize;
        grid.rows[at] = i16::from_le_bytes([record[2], record[3]]);
        grid.cols[at] = i16::from_le_bytes([record[4], record[5]]);
        grid.sads[at] = u32::from_le_bytes([record[6], record[7], record[8], record[9]]);
        self.cells += 1;
        self
    }

    fn reader(&self) -> Reader {
        laid_out([self.code, self.columns, self.rows, self.cells], &self.part)
    }
}

/// What a call that takes the fragment gives back; the cells go to the grid.
pub fn after_take(reader: &Reader, mut fragment: &[u8], grid: &mut Grid) -> Reader {
    let mut told = Told::of(reader);
    if told.code == 0 && told.columns != 0 && grid.room() < told.count() {
        told = told.refused(13);
    }
    while told.code == 0 && !fragment.is_empty() {
        told = told.go_on(&mut fragment, grid);
    }
    told.reader()
}

/// What an end call gives back.
pub fn after_end(reader: &Reader) -> Reader {
    match Told::of(reader) {
        told if told.code == 0 && !told.has_all() => told.refused(11).reader(),
        told => told.reader(),
    }
}
