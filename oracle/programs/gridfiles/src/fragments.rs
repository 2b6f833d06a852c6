//! One file read in fragments, from a new reader to an end call, and the refusals 10
//! to 13.

use std::ops::Range;

use cases::Random;
use lockdapple_sys::{Reader, reader_end, reader_new};

use crate::{
    case::{Buffers, Case, Outcome},
    judge,
    lent::Lent,
    link::{Link, State},
    read::Read,
};

/// How the calls come from two numbers. All but the first draw them, the first number
/// being the seed.
#[derive(Clone, Copy, PartialEq, Eq)]
enum Way {
    /// The file cut at two places, then an end call.
    Cuts,
    Drawn,
    /// As `Drawn`, in fragments of one byte.
    Bytes,
    /// As `Drawn`, some calls with a grid that may be too short.
    Short,
}

const WAYS: [Way; 4] = [Way::Cuts, Way::Drawn, Way::Bytes, Way::Short];

pub struct Fragments {
    way: Way,
    /// Two places, or a seed and 0.
    numbers: [u64; 2],
    /// The file, and the grid that is lent.
    read: Read,
}

/// Columns and rows of the file that is cut everywhere, and its length.
const CUT: (usize, usize) = (2, 2);
const CUT_LEN: usize = judge::file_len(CUT.0 * CUT.1);
const PLACES: usize = CUT_LEN + 1;
/// Each place, with each byte changed and with none.
pub const IN_TWO: usize = PLACES * PLACES;
/// Each pair of places.
pub const IN_THREE: usize = PLACES * (PLACES + 1) / 2;

/// Files in fragments of one byte are no longer.
const MOST_SINGLE: usize = 200;

enum Call {
    /// Bytes of the file, and the lengths of the grid's buffers.
    Take(Range<usize>, [usize; 3]),
    End,
}

impl Fragments {
    fn drawn(random: &mut Random, way: Way, read: Read) -> Box<dyn Case> {
        let numbers = [random.word() % (1 << 32), 0];
        Box::new(Fragments { way, numbers, read })
    }

    pub fn draw(random: &mut Random, _: usize) -> Box<dyn Case> {
        let read = Read::any(random);
        Self::drawn(random, Way::Drawn, read)
    }

    pub fn bytes(random: &mut Random, _: usize) -> Box<dyn Case> {
        let mut read = Read::any(random);
        while read.buffers.bytes > MOST_SINGLE {
            read = Read::any(random);
        }
        Self::drawn(random, Way::Bytes, read)
    }

    pub fn short(random: &mut Random, _: usize) -> Box<dyn Case> {
        let mut read = Read::any(random);
        let cells = read.columns * read.rows;
        read.buffers.cells = read.buffers.cells.map(|len| len.max(cells));
        Self::drawn(random, Way::Short, read)
    }

    /// The smallest file, a byte of which may be changed, cut at these places.
    fn cut(random: &mut Random, places: [usize; 2], changed: usize) -> Box<dyn Case> {
        let (columns, rows) = CUT;
        let lens = [random.pick(&[columns * rows, 2 * 256]); 3];
        let bits = random.between(1, 255) as u8;
        let read = Read {
            columns,
            rows,
            buffers: Buffers::draw(random, lens, CUT_LEN),
            changes: (changed < CUT_LEN)
                .then_some((changed, bits))
                .into_iter()
                .collect(),
        };
        Box::new(Fragments {
            way: Way::Cuts,
            numbers: places.map(|place| place as u64),
            read,
        })
    }

    /// The smallest file in two, at one place after the other.
    pub fn in_two(random: &mut Random, turn: usize) -> Box<dyn Case> {
        let changed = turn / PLACES % PLACES;
        Self::cut(random, [turn % PLACES, CUT_LEN], changed)
    }

    /// The smallest file in three, at one pair of places after the other.
    pub fn in_three(random: &mut Random, turn: usize) -> Box<dyn Case> {
        let (mut first, mut second) = (turn % IN_THREE, 0);
        while first > second {
            second += 1;
            first -= second;
        }
        Self::cut(random, [first, second], CUT_LEN)
    }

    /// The case of these numbers, or None where there is no such case.
    pub fn take(numbers: &[u64]) -> Option<Box<dyn Case>> {
        let (&[way, first, second], rest) = numbers.split_first_chunk()?;
        let (way, read) = (*WAYS.get(way as usize)?, Read::of(rest)?);
        let len = read.file().len() as u64;
        let there = way != Way::Cuts || (first <= second && second <= len);
        let numbers = [first, second];
        there.then(|| Box::new(Fragments { way, numbers, read }) as Box<dyn Case>)
    }

    /// The calls, the last of which is an end call.
    fn calls(&self, len: usize) -> Vec<Call> {
        let lens = self.read.buffers.cells;
        let [first, second] = self.numbers.map(|number| number as usize);
        let take = |range| Call::Take(range, lens);
        if self.way == Way::Cuts {
            let ranges = [0..first, first..second, second..len];
            return ranges.map(take).into_iter().chain([Call::End]).collect();
        }
        let mut random = Random::new(self.numbers[0]);
        let most = match self.way {
            Way::Bytes => 1,
            _ => random.pick(&[3, 12, 40, len + 1]).max(len / 16 + 1),
        };
        let ends_early = random.one_in(8);
        let (mut calls, mut at) = (Vec::new(), 0);
        while at < len {
            if random.one_in(8) {
                calls.push(take(at..at));
            }
            if ends_early && random.one_in(8) {
                calls.push(Call::End);
            }
            let to = len.min(at + 1 + random.below(most));
            calls.push(take(at..to));
            at = to;
        }
        calls.push(Call::End);
        // Calls after the file's end, or after a refusal.
        for _ in 0..random.pick(&[0, 0, 1, 3]) {
            let from = random.below(len + 1);
            calls.push(match random.below(4) {
                0 => Call::End,
                1 => take(from..from),
                2 => take(from..len.min(from + 1)),
                _ => take(0..from),
            });
        }
        calls.push(Call::End);
        if self.way == Way::Short {
            self.shorten(&mut random, &mut calls);
        }
        calls
    }

    /// Makes one buffer shorter: from a call on, up to one, or at one alone.
    fn shorten(&self, random: &mut Random, calls: &mut [Call]) {
        let cells = self.read.columns * self.read.rows;
        let at = random.below(calls.len());
        let any = random.below(cells);
        let (buffer, short) = (random.below(3), random.pick(&[cells - 1, any, 0]));
        let range = random.pick(&[(at, calls.len()), (0, at + 1), (at, at + 1)]);
        for call in &mut calls[range.0..range.1] {
            if let Call::Take(_, lens) = call {
                lens[buffer] = short;
            }
        }
    }
}

impl Outcome {
    /// What the call of that number gave, in place of the one before.
    fn add_call(&mut self, call: usize, should: &State, is: &Reader) {
        self.calls = call + 1;
        self.refusal = should.code;
        self.shape = (should.code == 0).then_some((should.columns, should.rows));
        let cells = should.cells.rows.len();
        self.kept = if should.code == 0 { 0 } else { cells };
        self.answers.expected.clear();
        self.answers.proved.clear();
        self.answers.add("call", call as i128, call as i128);
        self.add_reader(&should.reader(), is);
    }
}

impl Case for Fragments {
    fn name(&self) -> &'static str {
        "fragments"
    }

    fn columns(&self) -> Vec<&'static str> {
        [&["way", "first", "second"][..], &self.read.columns()].concat()
    }

    fn numbers(&self) -> Vec<u64> {
        let way = WAYS.iter().position(|way| *way == self.way).unwrap_or(0);
        let [first, second] = self.numbers;
        [&[way as u64, first, second][..], &self.read.numbers()].concat()
    }

    fn run(&self, lent: &mut Lent) -> Outcome {
        let (file, place) = (self.read.file(), self.read.buffers.place);
        let (before, same) = (self.read.buffers.grid(), self.read.buffers.cells);
        let calls = self.calls(file.len());
        let (mut lens, mut fragment) = (same, 0..0);
        lent.put(place, &before, &[]);
        let (mut link, mut reader) = (Link::default(), reader_new());
        let mut outcome = Outcome::new(Ok((0, 0)), place);
        outcome.add_call(0, &link.state, &reader);
        outcome.add_memory(lent, &before, &[]);
        // How far the file has come in its order and with one grid, and what its end gave.
        let (mut come, mut ended) = (Some(0), None);
        for (number, call) in calls.into_iter().enumerate() {
            if !outcome.answers.are_equal() {
                return outcome;
            }
            match call {
                Call::Take(range, lengths) => {
                    come = come.filter(|at| *at == range.start && lengths == same);
                    come = come.map(|_| range.end);
                    (fragment, lens) = (range, lengths);
                    let grid = before.holding(&link.state.cells, lens);
                    lent.put(place, &grid, &file[fragment.clone()]);
                    link.take(&file[fragment.clone()], grid.room());
                    reader = lent.take(reader);
                }
                Call::End => {
                    link.end();
                    reader = reader_end(reader);
                    if come.take() == Some(file.len()) {
                        ended = Some(link.state.clone());
                    }
                }
            }
            outcome.add_call(number + 1, &link.state, &reader);
            let grid = before.holding(&link.state.cells, lens);
            outcome.add_memory(lent, &grid, &file[fragment.clone()]);
        }
        // The second witness: the file read whole.
        if let Some(state) = ended
            && outcome.answers.are_equal()
        {
            lent.put(place, &before, &file);
            let shape = lent.read();
            outcome.whole = true;
            outcome.answers.add("whole_code", state.code, shape.code);
            if state.code == 0 {
                outcome
                    .answers
                    .add("whole_columns", state.columns as i128, shape.columns);
                outcome
                    .answers
                    .add("whole_rows", state.rows as i128, shape.rows);
                let grid = before.holding(&state.cells, same);
                outcome.add_memory(lent, &grid, &file);
            }
        }
        outcome
    }
}
