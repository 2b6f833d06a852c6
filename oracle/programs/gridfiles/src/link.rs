//! The judge of fragments, written from the words of the request that asks for them
//! alone: what all bytes so far say, looked at again at every call.

use lockdapple_sys::Reader;

use crate::{grid::Grid, judge::MARK, reader::laid_out};

/// What a reader must say.
#[derive(Clone, Default)]
pub struct State {
    pub code: u32,
    pub columns: usize,
    pub rows: usize,
    /// The complete good cell records.
    pub cells: Grid,
    /// The bytes of the record that comes next; none after a refusal.
    pub part: Vec<u8>,
}

impl State {
    fn refused(self, code: u32) -> Self {
        State {
            code,
            part: Vec::new(),
            ..self
        }
    }

    fn count(&self) -> usize {
        self.columns * self.rows
    }

    /// The 40 bytes that say so.
    pub fn reader(&self) -> Reader {
        let numbers = [self.columns, self.rows, self.cells.rows.len()];
        let [columns, rows, cells] = numbers.map(|number| number as u32);
        laid_out([self.code, columns, rows, cells], &self.part)
    }
}

/// The bytes that came, and what they say.
#[derive(Default)]
pub struct Link {
    bytes: Vec<u8>,
    pub state: State,
}

fn wrong(record: &[u8]) -> bool {
    record.iter().zip(MARK).any(|(byte, mark)| *byte != mark)
}

fn cells<'a>(records: impl Iterator<Item = &'a [u8; 10]>) -> Grid {
    let mut grid = Grid::default();
    for &[_, _, r0, r1, c0, c1, s0, s1, s2, s3] in records {
        grid.rows.push(i16::from_le_bytes([r0, r1]));
        grid.cols.push(i16::from_le_bytes([c0, c1]));
        grid.sads.push(u32::from_le_bytes([s0, s1, s2, s3]));
    }
    grid
}

/// What so many bytes say where the grid lent has room for so many cells.
fn look(bytes: &[u8], room: usize) -> State {
    let none = State::default();
    if wrong(bytes) {
        return none.refused(10);
    }
    let Some((&[_, _, columns, rows], rest)) = bytes.split_first_chunk() else {
        let part = bytes.to_vec();
        return State { part, ..none };
    };
    let [columns, rows] = [columns, rows].map(|less_one| usize::from(less_one) + 1);
    let mut state = State {
        columns,
        rows,
        ..none
    };
    if !columns.is_multiple_of(2) || !rows.is_multiple_of(2) {
        return state.refused(12);
    }
    if room < state.count() {
        return state.refused(13);
    }
    let records = rest.as_chunks().0.iter().take(state.count());
    state.cells = cells(records.take_while(|record| !wrong(&record[..])));
    let good = state.cells.rows.len();
    let left = &rest[10 * good..];
    if good == state.count() && !left.is_empty() {
        return state.refused(11);
    }
    if wrong(left) {
        return state.refused(10);
    }
    state.part = left.to_vec();
    state
}

impl Link {
    pub fn take(&mut self, fragment: &[u8], room: usize) {
        let state = self.state.clone();
        if state.code != 0 {
            return;
        }
        let header_ended = self.bytes.len() >= 4;
        if header_ended && room < state.count() {
            self.state = state.refused(13);
            return;
        }
        self.bytes.extend(fragment);
        self.state = look(&self.bytes, room);
    }

    pub fn end(&mut self) {
        let state = self.state.clone();
        let whole = self.bytes.len() >= 4 && state.cells.rows.len() == state.count();
        if state.code == 0 && !whole {
            self.state = state.refused(11);
        }
    }
}
