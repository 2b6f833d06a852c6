//! The range of a block's vectors, and the refusals 1, 2 and 3.

use cases::{Answer, Answers, Random, block, side};

use crate::{
    calls,
    kind::{Kind, Numbers, Outcome},
    refusal::Asked,
    scenes::{Scenes, Setting},
};

pub struct Range;

fn answer(code: u32, ends: [isize; 4]) -> Answer {
    let names = ["mvx_min", "mvx_max", "mvy_min", "mvy_max"];
    let ends = names.into_iter().zip(ends.map(|end| end as i128));
    [("code", code.into())].into_iter().chain(ends).collect()
}

/// Half of the frames have any size, since a range needs no planes.
fn any_side(random: &mut Random) -> usize {
    if random.one_in(2) {
        8 * (1 + random.below(128))
    } else {
        side(random)
    }
}

impl Kind for Range {
    fn name(&self) -> &'static str {
        "range"
    }

    fn columns(&self) -> Vec<&'static str> {
        Asked::COLUMNS.to_vec()
    }

    fn draw(&self, random: &mut Random, _: &Setting) -> Vec<i128> {
        let (width, height) = (any_side(random), any_side(random));
        let mut asked = Asked::from(block(random, width, height));
        for _ in 0..random.pick(&[0, 0, 0, 1, 2]) {
            asked.spoil(random);
        }
        asked.numbers()
    }

    fn run(&self, numbers: &mut Numbers<'_>, _: &mut Scenes) -> Option<Outcome> {
        let asked = Asked::take(numbers)?;
        let refusal = asked.refusal();
        let block = (refusal == 0).then(|| asked.block());
        let ends = block.map_or([0; 4], |at| {
            let r = at.range();
            [r.mvx_min, r.mvx_max, r.mvy_min, r.mvy_max]
        });
        let got = calls::range(&asked);
        let got_ends = [got.mvx_min, got.mvx_max, got.mvy_min, got.mvy_max];
        let answers = Answers {
            expected: answer(refusal, ends),
            proved: answer(got.code, got_ends.map(isize::from)),
        };
        Some(Outcome {
            block,
            ..Outcome::new(answers, refusal)
        })
    }
}
