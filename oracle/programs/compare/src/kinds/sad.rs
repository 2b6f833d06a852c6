//! The SAD of a block and the reference block that a vector in range leads to,
//! taken by the published `get_sad` alone.

use cases::{Random, block};
use oracle::Found;

use crate::{
    answers,
    call::Call,
    calls,
    kind::{Kind, Numbers, Outcome},
    scenes::{Scenes, Setting},
};

pub struct Sad;

/// A component in range, at an end of it in one draw of three.
fn component(random: &mut Random, min: isize, max: isize) -> i16 {
    let inside = random.between(min, max);
    random.pick(&[min, max, inside, inside, inside, inside]) as i16
}

impl Kind for Sad {
    fn name(&self) -> &'static str {
        "sad"
    }

    fn columns(&self) -> Vec<&'static str> {
        Call::columns()
    }

    fn draw(&self, random: &mut Random, setting: &Setting) -> Vec<i128> {
        let at = block(random, setting.width, setting.height);
        let range = at.range();
        let col = component(random, range.mvx_min, range.mvx_max);
        let row = component(random, range.mvy_min, range.mvy_max);
        Call::new(random, setting, at, row, col).numbers()
    }

    fn run(&self, numbers: &mut Numbers<'_>, scenes: &mut Scenes) -> Option<Outcome> {
        let call = Call::take(numbers)?;
        // Only calls that are answered belong to this kind.
        if call.asked.refusal_with_planes(call.lens) != 0 || call.weight != 0 {
            return None;
        }
        let scene = scenes.get(call.setting());
        let at = call.asked.block();
        let (range, row, col) = (at.range(), call.row, call.col);
        let inside = |v: i16, min, max| (min..=max).contains(&isize::from(v));
        if !inside(col, range.mvx_min, range.mvx_max) || !inside(row, range.mvy_min, range.mvy_max)
        {
            return None;
        }
        let sad = scene.oracle.sad(&at, row, col);
        let cost = 256 * u64::from(sad);
        let found = Found {
            row,
            col,
            sad,
            cost,
        };
        let answers = answers::found(0, Some(found), calls::candidate(&call, scene)?);
        Some(call.outcome(answers, 0, Some(at)))
    }
}
