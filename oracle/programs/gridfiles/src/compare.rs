//! Two grids compared: every place where they differ, and the next one from a cell on.

use cases::Random;
use lockdapple_sys as sys;

use crate::{
    case::{Buffers, Case, Outcome},
    draw::{lengths, shape},
    grid::Grid,
    lent::Lent,
};

/// A shape as a reading gave it back, or as none did.
type Shape = [u32; 3];

pub struct Compare {
    shapes: [Shape; 2],
    /// The second grid holds what the first holds, but for the cells that are changed.
    buffers: [Buffers; 2],
    /// Cells whose row, col or SAD is another in the second grid.
    changes: Vec<(usize, usize)>,
    from: usize,
}

/// How many cells are changed at the most.
const CHANGES: usize = 4;

/// A cell, often one of the first or of the last.
fn cell(random: &mut Random, cells: usize) -> usize {
    match random.below(4) {
        0 => random.below(3),
        1 => cells.saturating_sub(random.below(3)),
        _ => random.below(cells + 2),
    }
}

/// A shape with one thing about it changed: a refusal, or another side.
fn changed(random: &mut Random, mut shape: Shape) -> Shape {
    let refusal = random.pick(&[10, 11, 12, 13, 99]);
    match random.below(24) {
        0 => shape[0] = refusal,
        1 => shape[1] = shape[1].wrapping_add(random.pick(&[2, u32::MAX])),
        2 => shape[2] = shape[2].wrapping_add(random.pick(&[2, u32::MAX])),
        3 => (shape[1], shape[2]) = (shape[2], shape[1]),
        _ => {}
    }
    shape
}

/// Where two grids differ, of the words of request Three alone.
fn places(first: &Grid, second: &Grid, cells: usize) -> Vec<usize> {
    let pairs = first.cells().zip(second.cells()).take(cells);
    let unequal = pairs.enumerate().filter(|(_, (one, other))| one != other);
    unequal.map(|(place, _)| place).collect()
}

/// The first file's refusal, then the second's, then 14, then 13.
fn refusal([first, second]: [Shape; 2], rooms: [usize; 2]) -> u32 {
    let cells = u64::from(first[1]) * u64::from(first[2]);
    let tests = [
        (first[0], first[0] != 0),
        (second[0], second[0] != 0),
        (14, first[1..] != second[1..]),
        (13, rooms.iter().any(|&room| (room as u64) < cells)),
    ];
    tests.iter().find(|test| test.1).map_or(0, |test| test.0)
}

impl Compare {
    pub fn draw(random: &mut Random, _: usize) -> Box<dyn Case> {
        let (columns, rows) = shape(random);
        let cells = columns * rows;
        let said = [0, columns as u32, rows as u32];
        let shapes = [changed(random, said), changed(random, said)];
        let buffers = [(); 2].map(|()| {
            let lens = lengths(random, cells);
            Buffers::draw(random, lens, 0)
        });
        let changes = (0..random.below(CHANGES + 1))
            .map(|_| (cell(random, cells), random.below(3)))
            .collect();
        let from = match random.one_in(2) {
            true => 0,
            false => cell(random, cells),
        };
        let from = if random.one_in(32) { usize::MAX } else { from };
        Box::new(Compare {
            shapes,
            buffers,
            changes,
            from,
        })
    }

    /// The case of these numbers, or None where there is no such case.
    pub fn take(numbers: &[u64]) -> Option<Box<dyn Case>> {
        let (&shapes, rest) = numbers.split_first_chunk::<6>()?;
        let (&first, rest) = rest.split_first_chunk()?;
        let (&second, rest) = rest.split_first_chunk()?;
        let (&from, rest) = rest.split_first()?;
        let (changes, []) = rest.as_chunks() else {
            return None;
        };
        let shape = |at: usize| [0, 1, 2].map(|i| shapes[at + i] as u32);
        let change = |&[at, what]: &[u64; 2]| (at as usize, what as usize);
        Some(Box::new(Compare {
            shapes: [shape(0), shape(3)],
            buffers: [Buffers::take(first)?, Buffers::take(second)?],
            changes: changes.iter().map(change).collect(),
            from: from as usize,
        }))
    }

    /// Both grids, of the lengths that are lent.
    fn grids(&self) -> [Grid; 2] {
        let [first, second] = &self.buffers;
        let mut other = Grid::new(first.seed, second.cells);
        for &(at, what) in &self.changes {
            match what {
                0 => other.rows.get_mut(at).into_iter().for_each(|row| *row ^= 1),
                1 => other.cols.get_mut(at).into_iter().for_each(|col| *col ^= -1),
                _ => other.sads.get_mut(at).into_iter().for_each(|sad| *sad ^= 1 << 31),
            }
        }
        [first.grid(), other]
    }
}

impl Case for Compare {
    fn name(&self) -> &'static str {
        "compare"
    }

    fn columns(&self) -> Vec<&'static str> {
        let shapes = [
            "first_code", "first_columns", "first_rows", "second_code", "second_columns",
            "second_rows",
        ];
        let changes = ["cell", "what"].repeat(CHANGES);
        let buffers = [Buffers::COLUMNS, Buffers::COLUMNS].concat();
        [&shapes[..], &buffers, &["from"], &changes].concat()
    }

    fn numbers(&self) -> Vec<u64> {
        let shapes = self.shapes.as_flattened().iter().map(|&n| n.into());
        let buffers = self.buffers.iter().flat_map(Buffers::numbers);
        let changes = self.changes.iter();
        let changes = changes.flat_map(|&(at, what)| [at as u64, what as u64]);
        let from = [self.from as u64];
        shapes.chain(buffers).chain(from).chain(changes).collect()
    }

    fn run(&self, lent: &mut Lent) -> Outcome {
        let [first, second] = self.grids();
        let code = refusal(self.shapes, [first.room(), second.room()]);
        let [_, columns, rows] = self.shapes[0].map(|n| n as usize);
        let (mut count, mut next) = (0, 0);
        if code == 0 {
            let mut left = places(&first, &second, columns * rows);
            left.retain(|&place| self.from <= place);
            (count, next) = (left.len(), *left.first().unwrap_or(&(columns * rows)));
        }
        let [here, there] = self.buffers.each_ref().map(|buffers| buffers.place);
        lent.put(here, &first, &[]);
        lent.others.put(there, &second);
        let [one, other] = self.shapes.map(|[code, columns, rows]| sys::Shape {
            code,
            columns,
            rows,
        });
        let (compared, found) = lent.compare(one, other, self.from);
        let shape = if code == 0 { Ok((columns, rows)) } else { Err(code) };
        let mut outcome = Outcome::new(shape, here);
        outcome.compared = Some(count);
        let answers = &mut outcome.answers;
        answers.add("code", code, compared.code);
        answers.add("count", count as i128, compared.count);
        answers.add("first", next as i128, compared.first);
        answers.add("next_code", code, found.code);
        answers.add("next_place", next as i128, found.place);
        outcome.add_memory(lent, &first, &[]);
        outcome.add_cells(&lent.others, &second);
        outcome
    }
}
