//! The refusals 6 and 7 of a frame run, for lists of frames of any size.

use cases::{Answers, CELL_SEEDS, ORDERS, Random, cells, order};
use lockdapple_sys as sys;

use crate::{
    answers, calls,
    grids::Grids,
    kind::{Kind, Numbers, Outcome},
    planes::plane_len,
    refusal::{AskedRun, frame_is_valid, refusal_of_list, superblocks},
    scenes::{Scenes, Setting},
};

pub struct Lists;

/// Anything, with sixteen superblocks or with few of them often.
fn side(random: &mut Random) -> usize {
    let (most, few) = (128 - random.below(8), 1 + random.below(32));
    let any = 1 + random.below(128);
    8 * random.pick(&[most, few, any, any])
}

impl Kind for Lists {
    fn name(&self) -> &'static str {
        "lists"
    }

    fn columns(&self) -> Vec<&'static str> {
        let rest = ["guarded", "order", "order_seed", "cells_seed"];
        [&AskedRun::COLUMNS[..], &rest].concat()
    }

    fn draw(&self, random: &mut Random, _: &Setting) -> Vec<i128> {
        let mut asked = AskedRun {
            width: side(random),
            height: side(random),
        };
        let (which, seed) = (random.below(ORDERS.len()), random.below(1 << 16));
        let (across, down) = superblocks(asked.width, asked.height);
        let list = order(which, seed as u64, across, down);
        // An accepted list costs a whole run, so that most get a small frame.
        if refusal_of_list(asked.width, asked.height, &list) == 0 && !random.one_in(4) {
            (asked.width, asked.height) = (8 + asked.width % 256, 8 + asked.height % 256);
        }
        let (guarded, cells) = (random.one_in(4), random.word() % CELL_SEEDS);
        let rest = [guarded.into(), which as i128, seed as i128, cells.into()];
        [asked.numbers(), rest.to_vec()].concat()
    }

    fn run(&self, numbers: &mut Numbers<'_>, _: &mut Scenes) -> Option<Outcome> {
        let asked = AskedRun::take(numbers)?;
        let AskedRun { width, height } = asked;
        if !frame_is_valid(width, height) {
            return None;
        }
        let guarded = numbers.take::<u8>()? != 0;
        let (which, seed) = (numbers.take::<usize>()?, numbers.take()?);
        let name = *ORDERS.get(which)?;
        let (across, down) = superblocks(width, height);
        let list = order(which, seed, across, down);
        let refusal = refusal_of_list(width, height, &list);
        let mut grids = Grids::alone(cells(0, numbers.take()?, width, height), guarded);
        // Planes of zeros, on which an accepted list has the least to do.
        let zeros = vec![0; plane_len(width, height, 0)];
        let [full, half, quarter] = [0, 1, 2].map(|s| &zeros[..plane_len(width, height, s)]);
        let planes = sys::Planes {
            full,
            half,
            quarter,
        };
        let code = calls::run(&asked, [planes; 2], guarded, &mut grids, &list)?;
        let mut answers = Answers::default();
        match refusal {
            // What an accepted list leaves is asked by `run`.
            0 => answers.add("code", 0, code),
            _ => answers = answers::written(refusal, code, &grids, &grids.current.cells),
        }
        let mut seen = vec![("list", name)];
        if refusal == 0 && list.len() > 16 {
            seen.push(("accepted", "of more than 16"));
        }
        Some(Outcome {
            guarded,
            seen,
            ..Outcome::new(answers, refusal)
        })
    }
}
