//! The steps of a whole run, called one by one in the order of an accepted list.

use cases::{ACCEPTED, ORDERS, Random};

use crate::{
    answers, calls,
    grids::Grids,
    kind::{Kind, Numbers, Outcome},
    planes::Planes,
    refusal::{AskedRun, AskedStep},
    runs::RunCase,
    scenes::{Scene, Scenes, Setting},
};

pub struct Steps;

/// Every step of a run, in turn.
fn steps(asked: &AskedRun, list: &[u16]) -> Vec<AskedStep> {
    let step = |level, superblock: u16| AskedStep {
        width: asked.width,
        height: asked.height,
        level,
        superblock: superblock.into(),
    };
    let level = |level| list.iter().map(move |&superblock| step(level, superblock));
    [4, 3, 2].into_iter().flat_map(level).collect()
}

/// Takes the steps up to the first that is refused: its code and the step, or 0.
fn taken(
    steps: &[AskedStep],
    planes: &Planes,
    scene: &Scene,
    grids: &mut Grids,
) -> Option<(u32, Option<AskedStep>)> {
    for step in steps {
        let code = calls::step(step, planes, scene, grids)?;
        if code != 0 {
            return Some((code, Some(*step)));
        }
    }
    Some((0, None))
}

impl Kind for Steps {
    fn name(&self) -> &'static str {
        "steps"
    }

    fn columns(&self) -> Vec<&'static str> {
        RunCase::columns()
    }

    fn draw(&self, random: &mut Random, setting: &Setting) -> Vec<i128> {
        let asked = AskedRun {
            width: setting.width,
            height: setting.height,
        };
        let order = |random: &mut Random| random.pick(&[0, 1, 1, 1, 2, 3]);
        RunCase::draw(random, &asked, setting, false, order)
    }

    fn run(&self, numbers: &mut Numbers<'_>, scenes: &mut Scenes) -> Option<Outcome> {
        let mut case = RunCase::take(numbers, scenes)?;
        if case.order >= ACCEPTED || case.refusal() != 0 {
            return None;
        }
        let (planes, grids) = (&case.planes, &mut case.grids);
        let steps = steps(&case.asked, &case.list);
        let mut seen = vec![("list", ORDERS[case.order]), grids.seen()];
        if !case.list.is_sorted() {
            seen.push(("order", "another than raster"));
        }
        // What the first step at level 3 would find without level 4.
        let first = &steps[case.list.len()];
        if first.refusal_of_step(planes.lens, grids.lens(), &grids.current.cells) == 8 {
            seen.push(("window", "empty before level 4"));
        }
        let scene = scenes.get(case.setting);
        let should = scene
            .oracle
            .frame_run(&grids.current.cells, grids.previous());
        let (code, refused) = taken(&steps, planes, scene, grids)?;
        let mut answers = answers::written(0, code, grids, &should);
        if let Some(step) = refused {
            answers.proved.push(("level", step.level as i128));
            answers.proved.push(("superblock", step.superblock as i128));
        }
        Some(Outcome {
            content: Some(planes.content),
            guarded: planes.guarded,
            cells: should.sads.len(),
            seen,
            ..Outcome::new(answers, 0)
        })
    }
}
