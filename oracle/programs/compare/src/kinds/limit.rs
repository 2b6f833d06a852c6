//! Searches in which the sum of a candidate lies at the limit of the best so far, one
//! below it or one above it: samples of its reference block that the best's has not are
//! set until it does. With some weights the rate alone reaches the cost.

use cases::{CONTENTS, Frame, Random, SEEDS, WEIGHTS, searched_block};
use lockdapple_sys as sys;
use oracle::{BlockAt, PAD, Search};

use crate::{
    answers, calls,
    kind::{Kind, Numbers, Outcome},
    scenes::{Scenes, Setting},
};

/// A vector's row and column.
type Vector = (i16, i16);

/// A search, by which function ours is called, and the first two vectors that it
/// compares, from its start: the best so far, and the candidate.
struct Compared {
    search: Search,
    proved: calls::Search,
    best: Vector,
    candidate: Vector,
}

const COMPARED: [Compared; 3] = [
    Compared {
        search: Search::Diamond,
        proved: sys::diamond,
        best: (0, 0),
        candidate: (16, 0),
    },
    // Its round starts from an empty best.
    Compared {
        search: Search::Hexagon,
        proved: sys::hexagon,
        best: (-16, 0),
        candidate: (-8, 16),
    },
    Compared {
        search: Search::UnevenMultiHexagon,
        proved: sys::multi_hexagon,
        best: (0, 0),
        candidate: (-8, 0),
    },
];

/// How far the sum lies from the limit, and in words.
const NEAR: [(i128, &str); 3] = [
    (-1, "one below the limit"),
    (0, "at the limit"),
    (1, "one above the limit"),
];

/// The places of a block's samples in its plane, moved by a vector.
fn places(at: &BlockAt, (row, col): Vector) -> Vec<usize> {
    let s = usize::from(at.ssdec());
    let (stride, (w, h)) = ((at.width >> s) + 2 * PAD[s], at.size());
    let start = |cell: usize, eighths: i16| {
        let place = (4 * cell >> s) as isize + isize::from(eighths / 8) + PAD[s] as isize;
        place as usize
    };
    let (x, y) = (start(at.bx, col), start(at.by, row));
    (0..w * h)
        .map(|i| (y + i / w) * stride + x + i % w)
        .collect()
}

/// Sets samples of the candidate's reference block, but none of the best's, so that its
/// sum is `sum`; false where that can't be.
fn set(frame: &mut Frame, at: &BlockAt, best: Vector, candidate: Vector, sum: i128) -> bool {
    let s = usize::from(at.ssdec());
    let [cur, reference] = &mut frame.planes;
    let (cur, reference) = (&cur[s], &mut reference[s]);
    let kept = places(at, best);
    let pairs = places(at, (0, 0)).into_iter().zip(places(at, candidate));
    let (shared, own): (Vec<_>, Vec<_>) = pairs.partition(|(_, to)| kept.contains(to));
    let fixed = shared
        .iter()
        .map(|&(of, to)| cur[of].abs_diff(reference[to]));
    let mut left = sum - fixed.map(i128::from).sum::<i128>();
    let most = |of: usize| cur[of].max(u8::MAX - cur[of]);
    if left < 0 || left > own.iter().map(|&(of, _)| i128::from(most(of))).sum() {
        return false;
    }
    for (of, to) in own {
        let off = left.min(most(of).into()) as u8;
        reference[to] = cur[of].checked_add(off).unwrap_or_else(|| cur[of] - off);
        left -= i128::from(off);
    }
    true
}

/// The least sum with which a candidate of such a rate part is no cheaper.
fn limit(cost: u64, rate: u64) -> i128 {
    i128::from(cost.saturating_sub(rate).div_ceil(256))
}

pub struct Limit;

impl Kind for Limit {
    fn name(&self) -> &'static str {
        "limit"
    }

    fn columns(&self) -> Vec<&'static str> {
        vec![
            "width", "height", "level", "bx", "by", "content", "seed", "search", "near", "weight",
        ]
    }

    fn draw(&self, random: &mut Random, setting: &Setting) -> Vec<i128> {
        // Small, since a frame is made for each case.
        let (width, height) = (8 * (1 + random.below(10)), 8 * (1 + random.below(10)));
        let at = searched_block(random, width, height);
        let weight = match random.below(3) {
            0 => 0,
            1 => random.below(1_000) as u32,
            _ => random.pick(&WEIGHTS),
        };
        let numbers = [width, height, at.level, at.bx, at.by, setting.content];
        let mut numbers = numbers.map(|n| n as i128).to_vec();
        numbers.extend([
            setting.seed.into(),
            random.below(COMPARED.len()) as i128,
            random.below(NEAR.len()) as i128,
            weight.into(),
        ]);
        numbers
    }

    fn run(&self, numbers: &mut Numbers<'_>, _: &mut Scenes) -> Option<Outcome> {
        let at = BlockAt {
            width: numbers.take()?,
            height: numbers.take()?,
            level: numbers.take()?,
            refined: false,
            bx: numbers.take()?,
            by: numbers.take()?,
        };
        let (content, seed): (usize, u64) = (numbers.take()?, numbers.take()?);
        let compared = COMPARED.get(numbers.take::<usize>()?)?;
        let &(off, words) = NEAR.get(numbers.take::<usize>()?)?;
        let weight: u32 = numbers.take()?;
        if content >= CONTENTS.len() || seed >= SEEDS {
            return None;
        }
        let mut frame = Frame::new(at.width, at.height, content, seed);
        let (row, col) = compared.candidate;
        let cost = frame
            .oracle()
            .candidate(&at, compared.best.0, compared.best.1, weight)
            .cost;
        let rate = u64::from(oracle::rate(row, col)) * u64::from(weight);
        let sum = limit(cost, rate) + off;
        let near = set(&mut frame, &at, compared.best, compared.candidate, sum);
        let found = frame.oracle().search(compared.search, &at, 0, 0, weight);
        let [cur, reference] = frame
            .planes
            .each_ref()
            .map(|three| &three[usize::from(at.ssdec())][..]);
        let block = sys::Block {
            width: at.width,
            height: at.height,
            level: at.level,
            bx: at.bx,
            by: at.by,
        };
        let start = sys::Vector { row: 0, col: 0 };
        let proved = (compared.proved)(block, cur, reference, start, weight);
        let mut seen = Vec::new();
        if near {
            seen.push(("sum", words));
        }
        if cost <= rate {
            seen.push(("rate", "alone reaches the cost"));
        }
        Some(Outcome {
            content: Some(content),
            block: Some(at),
            seen,
            ..Outcome::new(answers::found(0, Some(found), proved), 0)
        })
    }
}
