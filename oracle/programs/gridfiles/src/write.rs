//! One grid written, and the refusals 1, 5 and 13.

use cases::Random;

use crate::{
    case::{Buffers, Case, Outcome},
    draw::{length, lengths, shape},
    grid::bytes,
    judge,
    lent::Lent,
};

pub struct Write {
    width: usize,
    height: usize,
    buffers: Buffers,
}

/// Sides that no frame has.
const SIDES: [usize; 11] = [
    0,
    4,
    7,
    9,
    12,
    1_020,
    1_028,
    1_032,
    (1 << 32) + 64,
    usize::MAX - 7,
    usize::MAX,
];

impl Write {
    pub fn draw(random: &mut Random, _: usize) -> Box<dyn Case> {
        let (columns, rows) = shape(random);
        let cells = lengths(random, columns * rows);
        let bytes = length(random, judge::file_len(columns * rows));
        let mut write = Write {
            width: 4 * columns,
            height: 4 * rows,
            buffers: Buffers::draw(random, cells, bytes),
        };
        match random.below(16) {
            0 => write.width = random.pick(&SIDES),
            1 => write.height = random.pick(&SIDES),
            _ => {}
        }
        Box::new(write)
    }

    /// The case of these numbers, or None where there is no such case.
    pub fn take(numbers: &[u64]) -> Option<Box<dyn Case>> {
        let (&[width, height], rest) = numbers.split_first_chunk()?;
        Some(Box::new(Write {
            width: width as usize,
            height: height as usize,
            buffers: Buffers::take(rest.try_into().ok()?)?,
        }))
    }
}

impl Case for Write {
    fn name(&self) -> &'static str {
        "write"
    }

    fn columns(&self) -> Vec<&'static str> {
        [&["width", "height"][..], &Buffers::COLUMNS].concat()
    }

    fn numbers(&self) -> Vec<u64> {
        let sides = [self.width as u64, self.height as u64];
        [&sides[..], &self.buffers.numbers()].concat()
    }

    fn run(&self, lent: &mut Lent) -> Outcome {
        let (width, height, place) = (self.width, self.height, self.buffers.place);
        let grid = self.buffers.grid();
        let before = bytes(self.buffers.seed + 1, self.buffers.bytes);
        let expected = judge::write(width, height, &grid, before.len());
        let mut should = before.clone();
        if let Ok(file) = &expected {
            should[..file.len()].copy_from_slice(file);
            // The judge keeps what it is asked: writing then reading gives the same grid.
            let (columns, rows) = (width / 4, height / 4);
            let cells = grid.first(columns * rows).unwrap();
            assert!(judge::read(file, grid.room()) == Ok((columns, rows, cells)));
        }
        lent.put(place, &grid, &before);
        let written = lent.write(width, height);
        let len = expected.as_ref().map_or(0, Vec::len);
        let mut outcome = Outcome::new(expected.map(|_| (width / 4, height / 4)), place);
        let (answers, refusal) = (&mut outcome.answers, outcome.refusal);
        answers.add("code", refusal, written.code);
        answers.add("bytes", len as i128, written.bytes);
        outcome.add_memory(lent, &grid, &should);
        outcome
    }
}
