//! One file read, and the refusals 10 to 13.

use cases::Random;

use crate::{
    case::{Buffers, Case, Outcome},
    draw::{lengths, shape},
    grid::Grid,
    judge,
    lent::{LONGER, Lent},
};

pub struct Read {
    /// What the header says, before anything is changed.
    pub columns: usize,
    pub rows: usize,
    /// A file that is shorter than the header says is cut off, a longer one goes on
    /// with records.
    pub buffers: Buffers,
    /// Places of bytes that are changed, and which of their bits.
    pub changes: Vec<(usize, u8)>,
}

/// Columns and rows of the files that are cut at every length.
const CUT: [(usize, usize); 4] = [(2, 2), (2, 4), (4, 2), (4, 4)];
/// Lengths are below this: up to a record and a byte more than the largest of them.
const CUT_BELOW: usize = judge::file_len(4 * 4) + 12;
pub const CUTS: usize = CUT.len() * CUT_BELOW;

/// Columns and rows of the file of which each byte is changed to each other value.
const CHANGED: (usize, usize) = (2, 2);
const CHANGED_LEN: usize = judge::file_len(CHANGED.0 * CHANGED.1);
pub const CHANGES: usize = CHANGED_LEN * 255;

/// The length of a file that should have `full` bytes: right in half of all draws,
/// else cut off, often near a record's end, or longer.
fn file_length(random: &mut Random, full: usize) -> usize {
    let (any, more) = (random.below(full), 1 + random.below(LONGER));
    let near = any / 10 * 10 + random.below(8);
    match random.below(12) {
        0 => random.below(8),
        1 => full - 1,
        2 => any,
        3 => near.min(full),
        4 => full + 1,
        5 => full + random.pick(&[2, 9, 10, 11, more]),
        _ => full,
    }
}

/// A byte's place: often in a mark, or in what the header says.
fn place(random: &mut Random, len: usize) -> usize {
    let records = len / 10 + 1;
    match random.below(8) {
        0 => random.below(4),
        1..5 => (4 + 10 * random.below(records)) + random.below(2),
        5 => len.saturating_sub(1 + random.below(12)),
        _ => random.below(len + 1),
    }
}

/// Bits that change, at least one: often few, or those between a mark's two bytes.
fn bits(random: &mut Random) -> u8 {
    let (one, any) = (1 << random.below(8), random.between(1, 255) as u8);
    random.pick(&[one, any, judge::MARK[0] ^ judge::MARK[1]])
}

impl Read {
    pub fn draw(random: &mut Random, _: usize) -> Box<dyn Case> {
        Box::new(Self::any(random))
    }

    pub fn any(random: &mut Random) -> Self {
        let (mut columns, mut rows) = shape(random);
        match random.below(48) {
            0 => columns -= 1,
            1 => rows -= 1,
            2 => (columns, rows) = (columns - 1, rows - 1),
            _ => {}
        }
        let cells = columns * rows;
        let mut len = file_length(random, judge::file_len(cells));
        let changes: Vec<_> = (0..random.pick(&[0, 0, 0, 1, 1, 2, 3]))
            .map(|_| (place(random, len), bits(random)))
            .collect();
        // What comes first counts: a wrong byte, or the file's end just before or after it.
        if let [(at, _), ..] = changes[..]
            && random.one_in(4)
        {
            len = len.min(at + random.below(3));
        }
        let lens = lengths(random, cells);
        Read {
            columns,
            rows,
            buffers: Buffers::draw(random, lens, len),
            changes,
        }
    }

    /// The small files at one length after the other.
    pub fn cut(random: &mut Random, turn: usize) -> Box<dyn Case> {
        let (columns, rows) = CUT[turn % CUT.len()];
        let len = turn / CUT.len() % CUT_BELOW;
        let cells = columns * rows;
        let lens = random.pick(&[[cells; 3], [cells + LONGER; 3]]);
        Box::new(Read {
            columns,
            rows,
            buffers: Buffers::draw(random, lens, len),
            changes: Vec::new(),
        })
    }

    /// The smallest file with one byte after the other changed; the lent grid holds its
    /// cells and no more, or as many as two columns or rows can be changed to.
    pub fn changed(random: &mut Random, turn: usize) -> Box<dyn Case> {
        let (columns, rows) = CHANGED;
        let bits = 1 + turn / CHANGED_LEN % 255;
        let lens = [random.pick(&[columns * rows, 2 * 256]); 3];
        Box::new(Read {
            columns,
            rows,
            buffers: Buffers::draw(random, lens, CHANGED_LEN),
            changes: vec![(turn % CHANGED_LEN, bits as u8)],
        })
    }

    /// The case of these numbers, or None where there is no such case.
    pub fn take(numbers: &[u64]) -> Option<Box<dyn Case>> {
        Some(Box::new(Self::of(numbers)?))
    }

    pub fn of(numbers: &[u64]) -> Option<Self> {
        let (&[columns, rows], rest) = numbers.split_first_chunk()?;
        let (&buffers, rest) = rest.split_first_chunk()?;
        let (changes, []) = rest.as_chunks() else {
            return None;
        };
        let change = |&[at, bits]: &[u64; 2]| (at as usize, bits as u8);
        let read = Read {
            columns: columns as usize,
            rows: rows as usize,
            buffers: Buffers::take(buffers)?,
            changes: changes.iter().map(change).collect(),
        };
        let there = (1..=256).contains(&columns) && (1..=256).contains(&rows);
        there.then_some(read)
    }

    pub fn file(&self) -> Vec<u8> {
        let cells = self.buffers.bytes / 10 + 1;
        let grid = Grid::new(self.buffers.seed + 1, [cells; 3]);
        let mut file = judge::records(self.columns, self.rows, &grid);
        file.truncate(self.buffers.bytes);
        for &(at, bits) in &self.changes {
            if let Some(byte) = file.get_mut(at) {
                *byte ^= bits;
            }
        }
        file
    }
}

impl Case for Read {
    fn name(&self) -> &'static str {
        "read"
    }

    fn columns(&self) -> Vec<&'static str> {
        let rest = [
            "place_1", "bits_1", "place_2", "bits_2", "place_3", "bits_3",
        ];
        [&["columns", "rows"][..], &Buffers::COLUMNS, &rest].concat()
    }

    fn numbers(&self) -> Vec<u64> {
        let shape = [self.columns as u64, self.rows as u64];
        let changes = self.changes.iter();
        let changes = changes.flat_map(|&(at, bits)| [at as u64, bits.into()]);
        let buffers = self.buffers.numbers();
        shape.into_iter().chain(buffers).chain(changes).collect()
    }

    fn run(&self, lent: &mut Lent) -> Outcome {
        let (file, before) = (self.file(), self.buffers.grid());
        let expected = judge::read(&file, before.room());
        let mut should = before.clone();
        if let Ok((columns, rows, grid)) = &expected {
            should.put(grid);
            // The judge keeps what it is asked: reading then writing gives the same bytes.
            assert!(judge::write(4 * columns, 4 * rows, grid, file.len()) == Ok(file.clone()));
        }
        lent.put(self.buffers.place, &before, &file);
        let shape = lent.read();
        let expected = expected.map(|(columns, rows, _)| (columns, rows));
        let (columns, rows) = expected.unwrap_or((0, 0));
        let mut outcome = Outcome::new(expected, self.buffers.place);
        let (answers, refusal) = (&mut outcome.answers, outcome.refusal);
        answers.add("code", refusal, shape.code);
        answers.add("columns", columns as i128, shape.columns);
        answers.add("rows", rows as i128, shape.rows);
        let (peeked, peek) = (judge::peek(&file), lent.peek());
        let (columns, rows, bytes) = peeked.unwrap_or((0, 0, 0));
        answers.add("peek", peeked.err().unwrap_or(0), peek.code);
        answers.add("peek_columns", columns as i128, peek.columns);
        answers.add("peek_rows", rows as i128, peek.rows);
        answers.add("peek_bytes", bytes as i128, peek.bytes);
        outcome.add_memory(lent, &should, &file);
        outcome
    }
}
