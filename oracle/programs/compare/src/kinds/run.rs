//! One frame run, and the refusals 1 and 4 to 7.

use cases::{ACCEPTED, ORDERS, Random};

use crate::{
    answers, calls,
    kind::{Kind, Numbers, Outcome},
    refusal::AskedRun,
    runs::RunCase,
    scenes::{Scenes, Setting},
};

pub struct Run;

impl Kind for Run {
    fn name(&self) -> &'static str {
        "run"
    }

    fn columns(&self) -> Vec<&'static str> {
        RunCase::columns()
    }

    fn draw(&self, random: &mut Random, setting: &Setting) -> Vec<i128> {
        let mut asked = AskedRun {
            width: setting.width,
            height: setting.height,
        };
        if random.one_in(16) {
            asked.spoil(random);
        }
        let order = |random: &mut Random| match random.below(6) {
            0 => 0,
            1 | 2 => 1,
            3 => random.below(ACCEPTED),
            _ => random.below(ORDERS.len()),
        };
        RunCase::draw(random, &asked, setting, true, order)
    }

    fn run(&self, numbers: &mut Numbers<'_>, scenes: &mut Scenes) -> Option<Outcome> {
        let mut case = RunCase::take(numbers, scenes)?;
        let (refusal, grids) = (case.refusal(), &mut case.grids);
        let scene = scenes.get(case.setting);
        // The published order is raster order, and every accepted list gives its grid.
        let should = match refusal {
            0 => scene
                .oracle
                .frame_run(&grids.current.cells, grids.previous()),
            _ => grids.current.cells.clone(),
        };
        let lent = case.planes.lend(scene)?;
        let guarded = case.planes.guarded;
        let code = calls::run(&case.asked, lent, guarded, grids, &case.list)?;
        let answers = answers::written(refusal, code, grids, &should);
        let accepted = usize::from(refusal == 0);
        Some(Outcome {
            content: Some(case.planes.content),
            guarded,
            cells: accepted * should.sads.len(),
            seen: vec![("list", ORDERS[case.order]), grids.seen()],
            ..Outcome::new(answers, refusal)
        })
    }
}
