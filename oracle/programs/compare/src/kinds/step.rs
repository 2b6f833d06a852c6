//! One superblock step, and the refusals 1 to 5 and 8.

use cases::{Random, stored_ends};
use oracle::{BlockAt, Grid};

use crate::{
    answers,
    call::shift,
    calls,
    grids::Grids,
    kind::{Kind, Numbers, Outcome},
    planes::{Planes, setting_of},
    refusal::{AskedStep, superblocks},
    scenes::{Scene, Scenes, Setting},
};

pub struct Step;

/// Where the vectors that a step refines lie: inside the ends that leave their
/// windows something, at an end, one of them just beyond an end, or as filled.
const STORED: usize = 4;

/// Puts the vectors that a step refines where `stored` says.
fn store(asked: &AskedStep, stored: usize, seed: u64, cells: &mut Grid) {
    let mut random = Random::new(seed);
    let blocks = asked.refined();
    let beyond = random.below(blocks.len().max(1));
    let beyond_row = random.one_in(2);
    for (i, block) in blocks.iter().enumerate() {
        let (range, s) = (block.block().range(), block.block().ssdec());
        let first = block.by * (asked.width / 4) + block.bx;
        let rows = (&mut cells.rows[first], range.mvy_min, range.mvy_max, true);
        let cols = (&mut cells.cols[first], range.mvx_min, range.mvx_max, false);
        for (component, min, max, is_row) in [rows, cols] {
            let (low, high) = stored_ends(min, max, s);
            let inside = isize::from(*component).clamp(low, high);
            *component = match stored {
                0 => inside,
                1 => random.pick(&[low, low + 1, high - 1, high, inside]),
                2 if i == beyond && is_row == beyond_row => random.pick(&[low - 1, high + 1]),
                2 => inside,
                _ => isize::from(*component),
            } as i16;
        }
    }
}

/// The normalised SAD by which the stop threshold at level 4 comes to `close`
/// parts in 256 of what no motion costs, or 0 where that is too little.
fn close_sad(asked: &AskedStep, close: u64, scene: &Scene) -> u32 {
    let (across, _) = superblocks(asked.width, asked.height);
    let (x, y) = (asked.superblock % across, asked.superblock / across);
    let at = BlockAt {
        width: asked.width,
        height: asked.height,
        level: 4,
        refined: false,
        bx: 16 * x,
        by: 16 * y,
    };
    let (w, h) = at.size();
    let area = (w * h) as u64;
    let threshold = u64::from(scene.oracle.sad(&at, 0, 0)) * close / 256;
    let min_sad = (threshold.saturating_sub(area) * 5).div_ceil(6);
    (min_sad * 16_384).div_ceil(area) as u32
}

impl Kind for Step {
    fn name(&self) -> &'static str {
        "step"
    }

    fn columns(&self) -> Vec<&'static str> {
        let stored = ["stored", "stored_seed", "close"];
        [
            &AskedStep::COLUMNS[..],
            &Planes::COLUMNS,
            &stored,
            &Grids::COLUMNS,
        ]
        .concat()
    }

    fn draw(&self, random: &mut Random, setting: &Setting) -> Vec<i128> {
        let (across, down) = superblocks(setting.width, setting.height);
        let mut asked = AskedStep {
            width: setting.width,
            height: setting.height,
            level: random.pick(&[2, 3, 4, 4]),
            superblock: random.below(across * down),
        };
        for _ in 0..random.pick(&[0, 0, 0, 0, 0, 0, 1, 2]) {
            asked.spoil(random);
        }
        let lent = setting_of(asked.width, asked.height, setting.content, setting.seed);
        let planes = Planes::draw(random, &lent, Some(shift(asked.level)), true);
        let stored = random.pick(&[0, 0, 0, 0, 0, 0, 1, 1, 2, 3]);
        let near = 128 + random.below(128);
        let close = random.pick(&[0, 0, 0, near, near, 256]);
        let stored = [stored, random.below(1 << 16), close].map(|n| n as i128);
        let grids = Grids::draw(random, &lent, planes.guarded, true);
        [asked.numbers(), planes.numbers(), stored.to_vec(), grids].concat()
    }

    fn run(&self, numbers: &mut Numbers<'_>, scenes: &mut Scenes) -> Option<Outcome> {
        let asked = AskedStep::take(numbers)?;
        let planes = Planes::take(numbers)?;
        let (stored, seed, close) = (numbers.take()?, numbers.take()?, numbers.take()?);
        if stored >= STORED || close > 256 {
            return None;
        }
        let setting = setting_of(asked.width, asked.height, planes.content, planes.seed);
        let valid = asked.refusal() == 0;
        let sad = (valid && close > 0).then(|| close_sad(&asked, close, scenes.get(setting)));
        let arrange = |previous: &mut Grid, current: &mut Grid| {
            if valid {
                store(&asked, stored, seed, current);
            }
            if let Some(sad) = sad {
                previous.sads.fill(sad);
                current.sads.fill(sad);
            }
        };
        let mut grids = Grids::take(numbers, setting, planes.guarded, scenes, arrange)?;
        let refusal = asked.refusal_of_step(planes.lens, grids.lens(), &grids.current.cells);
        let scene = scenes.get(setting);
        let should = match refusal {
            0 => scene.oracle.superblock_step(
                asked.level,
                asked.superblock,
                &grids.current.cells,
                grids.previous(),
            ),
            _ => grids.current.cells.clone(),
        };
        let code = calls::step(&asked, &planes, scene, &mut grids)?;
        let answers = answers::written(refusal, code, &grids, &should);
        let accepted = usize::from(refusal == 0);
        Some(Outcome {
            content: Some(planes.content),
            guarded: planes.guarded,
            cells: accepted * should.sads.len(),
            seen: vec![grids.seen()],
            ..Outcome::new(answers, refusal)
        })
    }
}
