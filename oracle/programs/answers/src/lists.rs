//! What the lists share, and the cases of candidates: edges first, then random ones.

use cases::{Frame, Random, SEEDS, WEIGHTS, block};
use oracle::{BlockAt, Found, MvRange, Oracle};

/// The seed of every list.
pub const SEED: u64 = 1;

/// Candidates at and just past the ends of their ranges, and others.
const ENDS: usize = 80;
const OTHERS: usize = 80;

/// The contents that the reader repeats, by their numbers.
pub const EACH: [usize; 6] = [0, 1, 2, 3, 4, 5];

/// The largest side of a frame with planes, which keeps the reader's buffers small.
const LARGEST: usize = 136;

/// What a line is of, by its first number.
#[derive(Clone, Copy)]
pub enum Kind {
    Candidate,
    Diamond,
    Hexagon,
    MultiHexagon,
    Refine,
    Frame,
}

/// The kind, the block, what is given (content, seed, row, column, weight), and
/// what was found.
pub fn line(kind: Kind, at: &BlockAt, given: [i128; 5], found: Found) -> String {
    let block = [
        at.width,
        at.height,
        at.level,
        at.refined.into(),
        at.bx,
        at.by,
    ]
    .map(|n| n as i128);
    let found = [
        found.row.into(),
        found.col.into(),
        found.sad.into(),
        found.cost.into(),
    ];
    let numbers = [&[kind as i128], &block[..], &given, &found].concat();
    let words: Vec<_> = numbers.iter().map(i128::to_string).collect();
    words.join(" ")
}

/// A block of a frame with planes: `contents` in turn, and in turn the smallest
/// frame, the largest and any.
pub fn on_planes(
    random: &mut Random,
    case: usize,
    contents: &[usize],
    block: impl Fn(&mut Random, usize, usize) -> BlockAt,
) -> (BlockAt, usize, u64, Oracle) {
    let mut side = || match case / contents.len() % 5 {
        0 => 8,
        1 => LARGEST,
        _ => 8 * (1 + random.below(LARGEST / 8)),
    };
    let (width, height) = (side(), side());
    let (content, seed) = (contents[case % contents.len()], random.word() % SEEDS);
    let frame = Frame::new(width, height, content, seed);
    (block(random, width, height), content, seed, frame.oracle())
}

/// The first block of each kind, then the last.
fn corner(case: usize, width: usize, height: usize) -> BlockAt {
    let kinds = [(4, false), (3, false), (3, true), (2, false), (2, true)];
    let (level, refined) = kinds[case / 8 % 5];
    let mut at = BlockAt {
        width,
        height,
        level,
        refined,
        bx: 0,
        by: 0,
    };
    if case >= ENDS / 2 {
        let last = |side: usize| (side - 1) / at.mv_size() * at.mv_size() / 4;
        (at.bx, at.by) = (last(width), last(height));
    }
    at
}

/// At each end of the range and just past it in turn; the other component is
/// anywhere in the range.
fn at_end(random: &mut Random, case: usize, range: MvRange) -> (i16, i16) {
    let mut row = random.between(range.mvy_min, range.mvy_max);
    let mut col = random.between(range.mvx_min, range.mvx_max);
    match case % 8 {
        0 => row = range.mvy_min,
        1 => row = range.mvy_min - 1,
        2 => row = range.mvy_max,
        3 => row = range.mvy_max + 1,
        4 => col = range.mvx_min,
        5 => col = range.mvx_min - 1,
        6 => col = range.mvx_max,
        _ => col = range.mvx_max + 1,
    }
    (row as i16, col as i16)
}

/// The four corners of the range, then anywhere in it.
fn inside(random: &mut Random, case: usize, range: MvRange) -> (i16, i16) {
    let (row, col) = match case % 7 {
        0 => (range.mvy_min, range.mvx_min),
        1 => (range.mvy_min, range.mvx_max),
        2 => (range.mvy_max, range.mvx_min),
        3 => (range.mvy_max, range.mvx_max),
        _ => (
            random.between(range.mvy_min, range.mvy_max),
            random.between(range.mvx_min, range.mvx_max),
        ),
    };
    (row as i16, col as i16)
}

pub fn candidate() -> Vec<String> {
    let mut random = Random::new(SEED);
    let mut answer = |case: usize| {
        let ends = case < ENDS;
        let drawn = |random: &mut Random, width, height| match ends {
            true => corner(case, width, height),
            false => block(random, width, height),
        };
        let (at, content, seed, oracle) = on_planes(&mut random, case, &EACH, drawn);
        let (row, col) = match ends {
            true => at_end(&mut random, case, at.range()),
            false => inside(&mut random, case, at.range()),
        };
        let any = random.word() as u32;
        // At an end no weight is 0, so that the rate shows.
        let number = if ends { 1 + case % 4 } else { case % 5 };
        let weight = WEIGHTS.get(number).copied().unwrap_or(any);
        let given = [
            content as i128,
            seed.into(),
            row.into(),
            col.into(),
            weight.into(),
        ];
        let found = oracle.candidate(&at, row, col, weight);
        line(Kind::Candidate, &at, given, found)
    };
    (0..ENDS + OTHERS).map(&mut answer).collect()
}
