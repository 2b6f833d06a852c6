//! One call with a state that no call need have given back: any 40 bytes.

use cases::Random;
use lockdapple_sys::{Reader, reader_end};

use crate::{
    case::{Case, Given, Outcome},
    draw::lengths,
    grid::bytes,
    judge,
    lent::Lent,
    read::Read,
    reader::halves,
    told,
};

#[derive(Clone, Copy, PartialEq, Eq)]
enum Call {
    /// Takes the file's bytes from a place on.
    Take,
    /// Takes as many bytes as the file has, but any.
    TakeAny,
    End,
}

const CALLS: [Call; 3] = [Call::Take, Call::TakeAny, Call::End];

pub struct State {
    call: Call,
    from: usize,
    given: Reader,
    /// The file, and the grid that is lent.
    read: Read,
}

/// The names of the numbers before those of `read`.
const COLUMNS: [&str; 10] = [
    "call",
    "from",
    "given_code",
    "given_columns",
    "given_rows",
    "given_cells",
    "given_held",
    "given_part_0_to_7",
    "given_part_8_to_15",
    "given_spare",
];

/// Files are no longer, and few grids are.
const MOST_BYTES: usize = 200;
const MOST_CELLS: usize = 1_000;

type Test = fn(&Reader) -> bool;

/// What some states must have that are not refused yet.
pub const ODD: [(&str, Test); 11] = [
    ("columns or rows above 256", |s| !shaped(s)),
    ("rows but no columns", |s| s.columns == 0 && s.rows != 0),
    ("cells but no columns", |s| s.columns == 0 && s.cells != 0),
    ("columns but no rows", |s| s.columns != 0 && s.rows == 0),
    ("odd columns or rows", |s| s.columns % 2 + s.rows % 2 > 0),
    ("more cells than its grid", |s| {
        s.columns != 0 && shaped(s) && count(s) < s.cells as usize
    }),
    ("more held than can have begun", |s| s.held > most_held(s)),
    ("more than 16 bytes held", |s| s.held > 16),
    ("a wrong mark held", |s| {
        s.held > 1 && s.part[..2] != judge::MARK
    }),
    ("bytes past those held", |s| {
        past(s).iter().any(|byte| *byte != 0)
    }),
    ("the last four bytes", |s| s.spare != 0),
];

fn shaped(state: &Reader) -> bool {
    state.columns <= 256 && state.rows <= 256
}

/// The cells of its grid; none where there is no such grid.
fn count(state: &Reader) -> usize {
    match shaped(state) {
        true => state.columns as usize * state.rows as usize,
        false => 0,
    }
}

fn most_held(state: &Reader) -> u32 {
    if state.columns == 0 { 3 } else { 9 }
}

fn past(state: &Reader) -> &[u8] {
    &state.part[state.held.min(16) as usize..]
}

/// Columns or rows: often those of the file, else at a limit or anything.
fn side(random: &mut Random, right: usize) -> u32 {
    let any = random.word() as u32;
    match random.below(16) {
        0 => random.pick(&[255, 256, 257, 1 << 16, 1 << 31, u32::MAX]),
        1 => any,
        2 => 0,
        3 | 4 => any % 12,
        _ => right as u32,
    }
}

impl State {
    pub fn draw(random: &mut Random, _: usize) -> Box<dyn Case> {
        let mut read = Read::any(random);
        while read.buffers.bytes > MOST_BYTES || read.columns * read.rows > MOST_CELLS {
            read = Read::any(random);
        }
        let mut given = Reader::UNWRITTEN;
        [given.columns, given.rows] = [read.columns, read.rows].map(|right| side(random, right));
        if random.one_in(3) {
            given.columns = 0;
            given.rows = random.pick(&[0, 0, 0, given.rows]);
        }
        // The grid is mostly as long as the state says; a long one costs as much as many.
        let cells = count(&given);
        let costs = if cells > MOST_CELLS { 32 } else { 1 };
        if (1..=256 * 256).contains(&cells) && random.one_in(costs) {
            read.buffers.cells = lengths(random, cells);
        }
        Self::fill(random, &mut given, cells);
        let (start, held) = (if given.columns == 0 { 0 } else { 4 }, given.held);
        let file = read.file();
        let right = file.get(start..).unwrap_or(&[]);
        if !random.one_in(4) {
            let len = right.len().min(16);
            given.part[..len].copy_from_slice(&right[..len]);
        }
        if random.one_in(2) {
            let past = held.min(16) as usize;
            given.part[past..].fill(0);
        }
        let right = start + held.min(most_held(&given)) as usize;
        let any = random.below(15);
        Box::new(State {
            call: random.pick(&[Call::Take, Call::Take, Call::TakeAny, Call::End]),
            from: random.pick(&[right, right, right, any]),
            given,
            read,
        })
    }

    /// Draws all but columns and rows.
    fn fill(random: &mut Random, given: &mut Reader, cells: usize) {
        let any = [(); 6].map(|()| random.word());
        let near_end = (cells + 2).saturating_sub(random.below(7));
        given.code = match random.below(12) {
            0 => random.pick(&[1, 10, 11, 12, 13, 14, 256, u32::MAX, any[0] as u32]),
            _ => 0,
        };
        given.cells = match random.below(8) {
            0 => any[1] as u32,
            1 => random.below(cells + 1) as u32,
            2 | 3 => 0,
            _ => near_end as u32,
        };
        given.held = match random.below(8) {
            0 => random.pick(&[4, 9, 10, 15, 16, 17, 255, 256, u32::MAX, any[2] as u32]),
            1 | 2 => most_held(given),
            _ => any[3] as u32 % (most_held(given) + 1),
        };
        given.part = (u128::from(any[4]) << 64 | u128::from(any[5])).to_le_bytes();
        given.spare = random.pick(&[0, 0, 1, any[0] as u32]);
    }

    /// The case of these numbers, or None where there is no such case.
    pub fn take(numbers: &[u64]) -> Option<Box<dyn Case>> {
        let (&[call, from, ref numbers @ ..], rest) = numbers.split_first_chunk::<10>()?;
        let &[code, columns, rows, cells, held, first, last, spare] = numbers;
        Some(Box::new(State {
            call: *CALLS.get(call as usize)?,
            from: from as usize,
            given: Reader {
                code: code.try_into().ok()?,
                columns: columns.try_into().ok()?,
                rows: rows.try_into().ok()?,
                cells: cells.try_into().ok()?,
                held: held.try_into().ok()?,
                part: (u128::from(last) << 64 | u128::from(first)).to_le_bytes(),
                spare: spare.try_into().ok()?,
            },
            read: Read::of(rest)?,
        }))
    }

    fn fragment(&self) -> Vec<u8> {
        let (file, seed) = (self.read.file(), self.read.buffers.seed);
        match self.call {
            Call::Take => file.get(self.from..).unwrap_or(&[]).to_vec(),
            Call::TakeAny => bytes(seed + 2, file.len()),
            Call::End => Vec::new(),
        }
    }
}

impl Case for State {
    fn name(&self) -> &'static str {
        "state"
    }

    fn columns(&self) -> Vec<&'static str> {
        [&COLUMNS[..], &self.read.columns()].concat()
    }

    fn numbers(&self) -> Vec<u64> {
        let given = &self.given;
        let numbers = [
            self.call as u64,
            self.from as u64,
            given.code.into(),
            given.columns.into(),
            given.rows.into(),
            given.cells.into(),
            given.held.into(),
        ];
        let [first, last] = halves(given.part);
        let rest = [first, last, given.spare.into()];
        [&numbers[..], &rest, &self.read.numbers()].concat()
    }

    fn run(&self, lent: &mut Lent) -> Outcome {
        let (before, place) = (self.read.buffers.grid(), self.read.buffers.place);
        let (given, fragment) = (&self.given, self.fragment());
        let mut grid = before.clone();
        lent.put(place, &before, &fragment);
        let (should, is) = match self.call {
            Call::End => (told::after_end(given), reader_end(*given)),
            Call::Take | Call::TakeAny => {
                let should = told::after_take(given, &fragment, &mut grid);
                (should, lent.take(*given))
            }
        };
        let mut outcome = Outcome::new(Err(should.code), place);
        outcome.given = Some(Given {
            ends: self.call == Call::End,
            state: *given,
            wrote: grid != before,
        });
        outcome.add_reader(&should, &is);
        outcome.add_memory(lent, &grid, &fragment);
        outcome
    }
}
