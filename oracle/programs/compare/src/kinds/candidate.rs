//! The SAD and the cost of one candidate, and the refusals 1 to 4.

use cases::{Random, block, component};

use crate::{
    answers,
    call::Call,
    calls,
    kind::{Kind, Numbers, Outcome},
    scenes::{Scenes, Setting},
};

pub struct Candidate;

impl Kind for Candidate {
    fn name(&self) -> &'static str {
        "candidate"
    }

    fn columns(&self) -> Vec<&'static str> {
        Call::columns()
    }

    fn draw(&self, random: &mut Random, setting: &Setting) -> Vec<i128> {
        let at = block(random, setting.width, setting.height);
        let range = at.range();
        let col = component(random, range.mvx_min, range.mvx_max);
        let row = component(random, range.mvy_min, range.mvy_max);
        let call = Call::new(random, setting, at, row, col).vary(random);
        call.numbers()
    }

    fn run(&self, numbers: &mut Numbers<'_>, scenes: &mut Scenes) -> Option<Outcome> {
        let call = Call::take(numbers)?;
        let refusal = call.asked.refusal_with_planes(call.lens);
        let scene = scenes.get(call.setting());
        let block = (refusal == 0).then(|| call.asked.block());
        let found = block.map(|at| scene.oracle.candidate(&at, call.row, call.col, call.weight));
        let answers = answers::found(refusal, found, calls::candidate(&call, scene)?);
        Some(call.outcome(answers, refusal, block))
    }
}
