//! What a case of a whole run is: a frame with its planes, a list and grids.

use cases::{ORDERS, Random, order};

use crate::{
    grids::Grids,
    kind::Numbers,
    planes::{Planes, setting_of},
    refusal::{AskedRun, superblocks},
    scenes::{Scenes, Setting},
};

pub struct RunCase {
    pub asked: AskedRun,
    pub planes: Planes,
    pub setting: Setting,
    /// The list's number in `ORDERS`.
    pub order: usize,
    pub list: Vec<u16>,
    pub grids: Grids,
}

impl RunCase {
    /// The names of the numbers.
    pub fn columns() -> Vec<&'static str> {
        let list = ["order", "order_seed"];
        [
            &AskedRun::COLUMNS[..],
            &Planes::COLUMNS,
            &list,
            &Grids::COLUMNS,
        ]
        .concat()
    }

    /// The numbers of a case for the frame that `asked` describes, if any; what is lent
    /// may be too short where it `may_lack`.
    pub fn draw(
        random: &mut Random,
        asked: &AskedRun,
        setting: &Setting,
        may_lack: bool,
        order: impl FnOnce(&mut Random) -> usize,
    ) -> Vec<i128> {
        let lent = setting_of(asked.width, asked.height, setting.content, setting.seed);
        let planes = Planes::draw(random, &lent, None, may_lack);
        let list = [order(random), random.below(1 << 16)];
        let list = list.map(|n| n as i128).to_vec();
        let grids = Grids::draw(random, &lent, planes.guarded, may_lack);
        [asked.numbers(), planes.numbers(), list, grids].concat()
    }

    pub fn take(numbers: &mut Numbers<'_>, scenes: &mut Scenes) -> Option<Self> {
        let asked = AskedRun::take(numbers)?;
        let planes = Planes::take(numbers)?;
        let (which, seed) = (numbers.take()?, numbers.take()?);
        let setting = setting_of(asked.width, asked.height, planes.content, planes.seed);
        let (across, down) = superblocks(setting.width, setting.height);
        (which < ORDERS.len()).then_some(())?;
        Some(RunCase {
            asked,
            setting,
            order: which,
            list: order(which, seed, across, down),
            grids: Grids::take(numbers, setting, planes.guarded, scenes, |_, _| {})?,
            planes,
        })
    }

    /// The refusal that is expected.
    pub fn refusal(&self) -> u32 {
        let lens = self.grids.lens();
        self.asked
            .refusal_of_run(self.planes.lens, lens, &self.list)
    }
}
