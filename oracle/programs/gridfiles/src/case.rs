//! What a case is: numbers are drawn, and both sides answer them.

use cases::{Answers, Memory, Place, Random};
use lockdapple_sys::Reader;

use crate::{
    grid::Grid,
    lent::{Cells, Lent, MOST_BYTES, MOST_CELLS},
};

/// One call. A case is its numbers and nothing else, so any case can be replayed.
pub trait Case {
    /// The call.
    fn name(&self) -> &'static str;

    /// The names of `numbers`.
    fn columns(&self) -> Vec<&'static str>;

    fn numbers(&self) -> Vec<u64>;

    fn run(&self, lent: &mut Lent) -> Outcome;
}

/// What a call was given, and whether it wrote to the grid.
pub struct Given {
    pub ends: bool,
    pub state: Reader,
    pub wrote: bool,
}

pub struct Outcome {
    pub answers: Answers,
    /// The refusal that was expected; 0 for none.
    pub refusal: u32,
    /// Columns and rows of a grid that was written or read.
    pub shape: Option<(usize, usize)>,
    pub place: Place,
    /// The calls of a reader; none where a file is written or read whole.
    pub calls: usize,
    /// The cells that a reader had taken in when it refused.
    pub kept: usize,
    /// A file in fragments was read whole as well.
    pub whole: bool,
    /// Two grids were compared, and so many places differed.
    pub compared: Option<usize>,
    /// Where it is one call with a state that no call need have given back.
    pub given: Option<Given>,
}

impl Outcome {
    /// The answers are still to be added.
    pub fn new(expected: Result<(usize, usize), u32>, place: Place) -> Self {
        Outcome {
            answers: Answers::default(),
            refusal: expected.err().unwrap_or(0),
            shape: expected.ok(),
            place,
            calls: 0,
            kept: 0,
            whole: false,
            compared: None,
            given: None,
        }
    }

    /// Adds the first item, if any, that is not as in `should`, or round it not as
    /// before.
    fn add_difference<T>(&mut self, buffer: &'static str, memory: &Memory<T>, should: &[T])
    where
        T: Copy + From<u8> + PartialEq,
        i128: From<T>,
    {
        if let Some((place, should, is)) = memory.first_difference(should) {
            self.answers.add("place", place as i128, place as i128);
            self.answers.add(buffer, should, is);
        }
    }

    /// Adds what a grid's buffers hold and should not.
    pub fn add_cells(&mut self, cells: &Cells, grid: &Grid) {
        self.add_difference("row", &cells.rows, &grid.rows);
        self.add_difference("col", &cells.cols, &grid.cols);
        self.add_difference("sad", &cells.sads, &grid.sads);
    }

    /// The same of a grid and a file.
    pub fn add_memory(&mut self, lent: &Lent, grid: &Grid, file: &[u8]) {
        self.add_cells(&lent.cells, grid);
        self.add_difference("byte", &lent.file, file);
    }
}

/// Seeds are below this.
const SEEDS: u64 = 1 << 32;

/// The lengths and the place of the buffers, and the seed of what they hold.
pub struct Buffers {
    /// Rows, columns and SADs.
    pub cells: [usize; 3],
    pub bytes: usize,
    pub seed: u64,
    pub place: Place,
}

impl Buffers {
    /// The names of `numbers`.
    pub const COLUMNS: [&'static str; 6] = [
        "rows_len", "cols_len", "sads_len", "file_len", "seed", "place",
    ];

    pub fn draw(random: &mut Random, cells: [usize; 3], bytes: usize) -> Self {
        Buffers {
            cells,
            bytes,
            seed: random.word() % SEEDS,
            place: random.pick(&Place::ALL),
        }
    }

    pub fn numbers(&self) -> [u64; 6] {
        let [rows, cols, sads] = self.cells.map(|len| len as u64);
        let place = Place::ALL.iter().position(|place| *place == self.place);
        let (bytes, place) = (self.bytes as u64, place.unwrap_or(0) as u64);
        [rows, cols, sads, bytes, self.seed, place]
    }

    /// None where they are too long to be lent, or there is no such seed or place.
    pub fn take(numbers: [u64; 6]) -> Option<Self> {
        let [rows, cols, sads, bytes, seed, place] = numbers;
        let cells = [rows, cols, sads].map(|len| len as usize);
        let buffers = Buffers {
            cells,
            bytes: bytes as usize,
            seed,
            place: *Place::ALL.get(place as usize)?,
        };
        let fit = cells.iter().all(|len| *len <= MOST_CELLS) && buffers.bytes <= MOST_BYTES;
        (fit && seed < SEEDS).then_some(buffers)
    }

    /// What the grid's buffers hold.
    pub fn grid(&self) -> Grid {
        Grid::new(self.seed, self.cells)
    }
}
