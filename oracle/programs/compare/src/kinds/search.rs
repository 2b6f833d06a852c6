//! The single searches, and the refusals 1 to 4 and 9.

use cases::{Random, mostly_between, searched_block};
use lockdapple_sys as sys;

use crate::{
    answers,
    call::Call,
    calls,
    kind::{Kind, Numbers, Outcome},
    scenes::{Scenes, Setting},
};

pub struct Search {
    name: &'static str,
    published: oracle::Search,
    proved: calls::Search,
}

pub const DIAMOND: Search = Search {
    name: "diamond",
    published: oracle::Search::Diamond,
    proved: sys::diamond,
};

pub const HEXAGON: Search = Search {
    name: "hexagon",
    published: oracle::Search::Hexagon,
    proved: sys::hexagon,
};

pub const MULTI_HEXAGON: Search = Search {
    name: "multi_hexagon",
    published: oracle::Search::UnevenMultiHexagon,
    proved: sys::multi_hexagon,
};

impl Kind for Search {
    fn name(&self) -> &'static str {
        self.name
    }

    fn columns(&self) -> Vec<&'static str> {
        Call::columns()
    }

    fn draw(&self, random: &mut Random, setting: &Setting) -> Vec<i128> {
        let at = searched_block(random, setting.width, setting.height);
        let range = at.range();
        let col = mostly_between(random, range.mvx_min, range.mvx_max);
        let row = mostly_between(random, range.mvy_min, range.mvy_max);
        let mut call = Call::new(random, setting, at, row, col).vary(random);
        // A search is not asked for a refined block.
        call.asked.refined = 0;
        call.numbers()
    }

    fn run(&self, numbers: &mut Numbers<'_>, scenes: &mut Scenes) -> Option<Outcome> {
        let call = Call::take(numbers)?;
        if call.asked.refined != 0 {
            return None;
        }
        let refusal = call.asked.refusal_of_search(call.lens, call.row, call.col);
        let scene = scenes.get(call.setting());
        let block = (refusal == 0).then(|| call.asked.block());
        let found = block.map(|at| {
            let (row, col, weight) = (call.row, call.col, call.weight);
            scene.oracle.search(self.published, &at, row, col, weight)
        });
        let proved = calls::search(self.proved, &call, scene)?;
        let answers = answers::found(refusal, found, proved);
        Some(call.outcome(answers, refusal, block))
    }
}
