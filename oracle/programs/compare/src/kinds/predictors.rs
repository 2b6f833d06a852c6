//! The predictors of a block, and the refusals 1, 2, 3 and 5.

use cases::{Answer, Answers, CONTENTS, Random, SEEDS, searched_block};
use lockdapple_sys::{Subsets, Vector};
use oracle::BlockAt;

use crate::{
    calls,
    grids::Grids,
    kind::{Kind, Numbers, Outcome},
    planes::setting_of,
    refusal::Asked,
    scenes::{Scenes, Setting},
};

pub struct Predictors;

fn answer(numbers: [u32; 5], center: (i16, i16), lists: [[(i16, i16); 5]; 2]) -> Answer {
    let names = ["code", "min_sad", "threshold", "b_count", "c_count"];
    let mut answer: Answer = names.into_iter().zip(numbers.map(i128::from)).collect();
    let mut add = |row, col, mv: (i16, i16)| {
        answer.push((row, mv.0.into()));
        answer.push((col, mv.1.into()));
    };
    add("center_row", "center_col", center);
    for mv in lists[0] {
        add("b_row", "b_col", mv);
    }
    for mv in lists[1] {
        add("c_row", "c_col", mv);
    }
    answer
}

/// Slots past a count hold the zero vector.
fn five(list: &[(i16, i16)]) -> [(i16, i16); 5] {
    let mut slots = [(0, 0); 5];
    slots[..list.len()].copy_from_slice(list);
    slots
}

/// The published Rust's answer, but for the threshold, which is document 01's for
/// the published minimum SAD.
fn published(at: &BlockAt, found: &oracle::Predictors) -> Answer {
    let (w, h) = at.size();
    let numbers = [
        0,
        found.min_sad,
        (u64::from(found.min_sad) * 6 / 5) as u32 + (w * h) as u32,
        found.b.len() as u32,
        found.c.len() as u32,
    ];
    let center = found.centre.unwrap_or((0, 0));
    answer(numbers, center, [five(&found.b), five(&found.c)])
}

fn proved(got: &Subsets) -> Answer {
    let pair = |mv: Vector| (mv.row, mv.col);
    answer(
        [
            got.code,
            got.min_sad,
            got.threshold,
            got.b_count,
            got.c_count,
        ],
        pair(got.center),
        [got.b.map(pair), got.c.map(pair)],
    )
}

impl Kind for Predictors {
    fn name(&self) -> &'static str {
        "predictors"
    }

    fn columns(&self) -> Vec<&'static str> {
        let frame = ["content", "seed", "guarded"];
        [&Asked::COLUMNS[..], &frame, &Grids::COLUMNS].concat()
    }

    fn draw(&self, random: &mut Random, setting: &Setting) -> Vec<i128> {
        let mut asked = Asked::from(searched_block(random, setting.width, setting.height));
        for _ in 0..random.pick(&[0, 0, 0, 0, 0, 0, 1, 2]) {
            asked.spoil(random);
        }
        // No predictors are asked for a refined block.
        asked.refined = 0;
        let guarded = random.one_in(4);
        let (content, seed) = (setting.content, setting.seed);
        let lent = setting_of(asked.width, asked.height, content, seed);
        let frame = [content as i128, seed.into(), guarded.into()];
        let grids = Grids::draw(random, &lent, guarded, true);
        [asked.numbers(), frame.to_vec(), grids].concat()
    }

    fn run(&self, numbers: &mut Numbers<'_>, scenes: &mut Scenes) -> Option<Outcome> {
        let asked = Asked::take(numbers)?;
        let (content, seed) = (numbers.take()?, numbers.take()?);
        if asked.refined != 0 || content >= CONTENTS.len() || seed >= SEEDS {
            return None;
        }
        let guarded = numbers.take::<u8>()? != 0;
        let setting = setting_of(asked.width, asked.height, content, seed);
        let grids = Grids::take(numbers, setting, guarded, scenes, |_, _| {})?;
        let refusal = asked.refusal_of_predictors(grids.lens());
        let block = (refusal == 0).then(|| asked.block());
        let found = block.map(|at| {
            let oracle = &scenes.get(setting).oracle;
            (
                at,
                oracle.predictors(&at, &grids.current.cells, grids.previous()),
            )
        });
        let mut seen = vec![grids.seen()];
        let expected = match &found {
            None => answer([refusal, 0, 0, 0, 0], (0, 0), [[(0, 0); 5]; 2]),
            Some((at, found)) => {
                let expected = published(at, found);
                if expected[2].1 != found.threshold.into() {
                    seen.push(("threshold", "another than the published one"));
                }
                expected
            }
        };
        let proved = proved(&calls::predictors(&asked, &grids)?);
        Some(Outcome {
            guarded,
            block,
            seen,
            ..Outcome::new(Answers { expected, proved }, refusal)
        })
    }
}
